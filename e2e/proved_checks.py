"""What the documents say is proved: each crate is there, and each function and clause that is named stands in the sources."""
import re

from sources import CRATES, TOP, crate_names, functions_of, names_of

# the most characters of a row of the README's table
ROW = 300
# names of the kit, and beginnings of names
OTHERS = {"AllocError", "Has", "Model", "is_alphabetic", "is_numeric"}

# `f`, `g` (`a`, `b`); `h`: f and g have the clauses a and b, and h is there too
NAMES = r"`[\w:]+`(?:, `[\w:]+`)*"
GROUP = rf"{NAMES}(?: \({NAMES}\))?"
LINE = re.compile(rf"- ({GROUP}(?:; {GROUP})*)(?:, where [a-z ]+)?: (.*)")
NAME = re.compile(r"`([A-Za-z]\w*(?:::\w+)?)`")


def run(_program, report):
    page = (TOP / "docs/PROVED.md").read_text()
    sections = dict(re.findall(r"^### `(\w+)`\n(.*?)(?=^##|\Z)", page, re.MULTILINE | re.DOTALL))
    report.check("docs/PROVED.md has a heading for each crate of crates.txt, and no other", sorted(crate_names()), sorted(sections))
    # the crates of the kit stand in crates.txt too
    known = set(re.findall(r"\w+", (TOP / "crates.txt").read_text())).union(*map(names_of, crate_names()))
    for crate, text in sections.items():
        for line in text.splitlines():
            lines_stand(crate, line, known, report)
    for name in NAME.findall(page.partition("\n### ")[0]):
        report.check(f"docs/PROVED.md: `{name}` stands in the sources", True, name in known)
    readme_rows(known, report)
    definitions(report)
    refusals(known, report)
    names_stand(known, report)


def lines_stand(crate, line, known, report):
    """The functions that a line begins with are the crate's and have these clauses, and whatever else it names stands somewhere."""
    where = f"docs/PROVED.md, `{crate}`"
    found = LINE.fullmatch(line)
    if line.startswith("- "):
        report.check(f"{where}: begins with functions and their clauses: {line!r}", True, bool(found))
    for group in found[1].split("; ") if found else ():
        functions, _, clauses = group.partition(" (")
        for function in re.findall(r"[\w:]+", functions):
            report.check(f"{where}: `{function}` is a function or a definition of it", True, function in names_of(crate))
            for clause in re.findall(r"\w+", clauses):
                report.check(f"{where}: `{function}` has a clause `{clause}`", True, clause in functions_of(crate).get(function, ()))
    for name in NAME.findall(found[2] if found else line):
        report.check(f"{where}: `{name}` stands in the sources", True, name in known)


def readme_rows(known, report):
    """The README's table has each crate once, in rows that aren't long."""
    text = (TOP / "README.md").read_text().partition("\n## What is proved\n")[2].partition("\n### ")[0]
    rows = [line for line in text.splitlines() if line.startswith("| `")]
    named = [name for row in rows for name in re.findall(r"`(\w+)`", row.split("|")[1])]
    report.check("README.md has a row for each crate of crates.txt, and no other", sorted(crate_names()), sorted(named))
    for row in rows:
        report.check(f"README.md: a row has at most {ROW} characters: {row[:60]}..", True, len(row) <= ROW)
        for name in NAME.findall(row):
            report.check(f"README.md: `{name}` stands in the sources", True, name in known)


def definitions(report):
    """docs/DEFINITIONS.md has a place for each file of definitions, examples aside; the desk's have theirs in docs/ARCHITECTURE.md."""
    sections = re.split(r"^## ", (TOP / "docs/DEFINITIONS.md").read_text(), flags=re.MULTILINE)
    for path in sorted(CRATES.glob("*/specs/*.antt")):
        crate, name = path.parent.parent.name, path.stem
        if name != "Lib" and "Example" not in name and crate not in ("session_desk", "desk_trials"):
            told = any(crate in section and re.search(rf"[`/]{name}`", section) for section in sections)
            report.check(f"docs/DEFINITIONS.md says what crates/{crate}/specs/{name} is", True, told)


def refusals(known, report):
    """Each row of the table of refusals names functions of its crates, and clauses that one of them has, or definitions."""
    section = (TOP / "docs/DEFINITIONS.md").read_text().partition("\n## Refusals\n")[2].partition("\n## ")[0]
    definitions_known = {name for name in known if name[0].isupper()}
    called = []
    for calls, _, _, _, clauses in [line.split("|")[1:-1] for line in section.splitlines() if line.startswith("| ")][1:]:
        if calls.strip():
            called = [(crate, name) for crate, *names in (re.findall(r"\w+", group) for group in calls.split(";")) for name in names]
        for crate, name in called:
            there = crate in crate_names() and name in functions_of(crate)
            report.check(f"docs/DEFINITIONS.md, refusals: `{name}` is a function of `{crate}`", True, there)
        told = definitions_known.union(*(functions_of(crate).get(name, ()) for crate, name in called))
        for name in NAME.findall(clauses):
            report.check(f"docs/DEFINITIONS.md, refusals of {called}: a clause or a definition `{name}`", True, name in told)


def names_stand(known, report):
    """What these pages call by a name of the sources is there."""
    files = {path.stem for part in ("specs", "proofs") for path in CRATES.glob(f"*/{part}/*.antt")}
    for page in ("ARCHITECTURE.md", "DECISIONS.md", "DEFINITIONS.md"):
        named = {name for name in NAME.findall((TOP / "docs" / page).read_text()) if re.search("[_:]|^[A-Z]", name)}
        report.check(f"docs/{page}: names that nothing in the sources has", [], sorted(named - known - files - OTHERS))
