"""The bytes that the documents show are those that the program writes."""
import json
import pathlib
import re

from drawings import keys_line
from edit_checks import last_drawing
from processes import run_whole, run_with_files

TOP = pathlib.Path(__file__).resolve().parent.parent

# the session that README.md tells of, and that of docs/PROTOCOL.md
README_SESSION = [keys_line("ihi<esc>"), keys_line("ia", "<nope>")]
PROTOCOL_SESSION = [keys_line("ihi<esc>"), keys_line("h"), keys_line(":wr"), keys_line("<ret>"), keys_line("ia", "<nope>")]
# how requests begin
REQUESTS = tuple(b'{"jsonrpc":"2.0","method":"%s"' % method for method in (
    b"keys", b"resize", b"scroll", b"mouse_move", b"mouse_press", b"mouse_release"))


def shown_lines(text):
    """The lines of JSON that stand by themselves, requests aside."""
    return [line for line in text.encode().splitlines(True)
            if line.startswith((b'{"jsonrpc"', b'{"error"')) and not line.startswith(REQUESTS)]


def protocol_pages():
    """The page of the protocol: what it tells of one client over pipes, of a whole run, and of many over a socket."""
    first, _, rest = (TOP / "docs/PROTOCOL.md").read_text().partition("\n## A whole run\n")
    whole, _, servers = rest.partition("\n## Servers\n")
    return first, whole, servers


def run(program, report):
    links(report)
    plugins(program, report)
    shows("README.md", (TOP / "README.md").read_text(), README_SESSION, program, report)
    first, whole, _ = protocol_pages()
    shows("docs/PROTOCOL.md", first, PROTOCOL_SESSION, program, report)
    session = TOP / "e2e/first_path/006"
    for suffix in (".in", ".out"):
        report.check(f"docs/PROTOCOL.md shows e2e/first_path/006{suffix}", True, session.with_suffix(suffix).read_text() in whole)
    recorded, clients, screens, kept, generated = [len(list((TOP / "e2e").glob(names))) for names in ("*/*.in", "clients/*.in", "screens/*.in", "*/*.after", "generated/*.words")]
    counts = [recorded, clients + screens, kept, generated]
    told = re.search(r"(\d+) recorded sessions, of which (\d+) are replays and (\d+) have the files that they leave; and (\d+) generated", (TOP / "README.md").read_text())
    report.check("README.md: how many sessions are recorded", counts, [int(number) for number in told.groups()])


def links(report):
    """What a page links to, and each file of the repository that it names, is there."""
    for page in [TOP / "README.md", *sorted((TOP / "docs").glob("*.md"))]:
        text = page.read_text()
        for target, _, heading in (link.partition("#") for link in re.findall(r"\]\((?!https?:)([^)]+)\)", text)):
            there = page.parent / target if target else page
            slugs = [re.sub(r"[^\w -]", "", line.lower()).replace(" ", "-") for line in re.findall(r"^#+ (.*)", there.read_text() if there.is_file() else "", re.MULTILINE)]
            report.check(f"{page.name} links to {target}#{heading}", True, there.exists() and (not heading or heading in slugs))
        for path in sorted(set(re.findall(r"\b(?:docs|e2e|examples|bench)/[\w./]*\w", text))):
            report.check(f"{page.name} names {path}", True, (TOP / path).exists())


def plugins(program, report):
    """Each plugin of docs/PLUGINS.md is loaded as the page says, and each row of the tables behind it does what it says."""
    page = (TOP / "docs/PLUGINS.md").read_text()
    loads = re.search(r"^`:edit surround\.kak(.*)`$", page, re.MULTILINE)[1]
    sections = re.findall(r"^```kak\n# (\S+)\n(.*?)^```\n(.*?)(?=^#|\Z)", page, re.MULTILINE | re.DOTALL)
    files = {name: f"# {name}\n{text}".encode() for name, text, _ in sections}
    report.check("docs/PLUGINS.md: plugins of their own names, each in a block that is read", page.count("```") // 2, len(files))
    for name, _, rest in sections:
        rows = [[cell.strip().strip("`") for cell in row[1:-1].split("|")] for row in rest.splitlines() if row.startswith("| `")]
        report.check(f"docs/PLUGINS.md: {name} has rows", True, bool(rows))
        for text, keys, then, status in rows:
            lines = [f":edit {name}{loads}", ":buffer *scratch*<ret>", f"i{text}<esc>gg", keys]
            ended, _ = run_with_files(program, ["-ui", "json"], b"".join(map(keys_line, lines)), files)
            drawings = ended.output.splitlines()
            report.check(f"docs/PLUGINS.md: {name} is loaded", "", last_drawing(b"\n".join(drawings[5:9]))[2])
            drawn = "".join(atom["contents"] for atoms in json.loads(drawings[-4])["params"][0] for atom in atoms)
            report.check(f"docs/PLUGINS.md: {name}: {keys}", (then.replace("<ret>", "\n") + "\n", status), (drawn, last_drawing(ended.output)[2]))


def shows(name, text, session, program, report):
    """Each line that is shown is one that the program writes in this session."""
    written = set(run_whole(program, ["-ui", "json"], b"".join(session)).output.splitlines(True))
    lines = shown_lines(text)
    report.check(f"{name} shows lines", True, bool(lines))
    for line in lines:
        report.check(f"{name}: the program writes the line {line!r}", True, line in written)
