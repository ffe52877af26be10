"""Keys that move and make selections, and what their drawings then say: the cursor's place, the selections, the status."""
import json

from drawings import keys_line
from processes import run_whole

MAX_SELECTIONS = 262_144
MAX_GROUPS = 99_999
# a request line has at most this many bytes, and a `<ret>` five of them
RETURNS_A_LINE = 100_000

# keys that are typed after `i`, a text and `<esc>gg`; the mode line that follows; the status that follows
ROWS = {
    "the ends of a line are two selections": ("abc", ["x<a-S>"], "1:4 normal 2/2", ""),
    "and one of them can be kept": ("abc", ["x<a-S>;,"], "1:4 normal 1/1", ""),
    "three ends of words": ("foo, bar", ["eee"], "1:8 normal 1/1", ""),
    "and back again": ("foo, bar", ["eeebb"], "1:4 normal 1/1", ""),
    "a copy on a newline": ("ab<ret>c", ["lC"], "2:2 normal 2/2", ""),
    "words": ("foo bar", ["w"], "1:4 normal 1/1", ""),
    "the last word stays": ("foo bar", ["www"], "1:7 normal 1/1", ""),
    "a target on a newline": ("abc<ret>ab", ["llj"], "2:3 normal 1/1", ""),
    "a target behind a newline": ("abcd<ret>ab", ["lllj"], "2:2 normal 1/1", ""),
    "a line beyond the last": ("a<ret>b", ["9g"], "2:1 normal 1/1", ""),
    "two lines at once": ("a<ret>b", ["%<a-s>", "ix<esc>"], "2:2 normal 2/2", ""),
    "a count is kept from line to line": ("abcdef", ["2", "1h3l", "4"], "1:4 normal 1/1", ""),
    "a key that waits is kept too": ("abcabc", ["f", "c"], "1:3 normal 1/1", ""),
    "the only selection isn't dropped": ("ab", ["l<a-,>"], "1:2 normal 1/1", "nothing selected"),
    "blanks alone aren't trimmed": ("  a", ["l_"], "1:2 normal 1/1", "nothing selected"),
    "no whole line": ("ab<ret>cd", ["l<a-x>"], "1:2 normal 1/1", "nothing selected"),
    "the next key takes the status away": ("ab", ["<a-,>", "l"], "1:2 normal 1/1", ""),
    "a count as far as the units": ("x" * 5000, ["9999l"], "1:4097 normal 1/1", "given up: budget spent"),
    "a count that the text ends first": ("x" * 50, ["99l"], "1:51 normal 1/1", ""),
    "a count of turns": ("a<ret>b<ret>c", ["%<a-s>2)"], "2:2 normal 2/3", ""),
    "what was typed is taken back": ("", ["ia<esc>", "u"], "1:1 normal 1/1", ""),
    "two groups are": ("ab", ["ix<c-u>y<esc>", "2u"], "1:1 normal 1/1", ""),
    "the first text has none before it": ("ab", ["9u"], "1:1 normal 1/1", "nothing to undo"),
    "there is nothing to make again": ("ab", ["U"], "1:1 normal 1/1", "nothing to redo"),
    "below the first node is none": ("", ["<c-k>"], "1:1 normal 1/1", "no such undo node"),
    "what changed on both sides of a way is selected": ("", ["ia<esc>uib<esc>", "<c-k>"], "1:1 normal 1/2", ""),
    "wide characters and tabs": ("漢字<ret><tab>b", ["lj"], "2:1 normal 1/1", ""),
    # the window has 24 lines; it follows the cursor when it is drawn, and doesn't see before that that lines are gone
    "the window's first line": ("<ret>" * 29, ["ge", "gt"], "7:1 normal 1/1", ""),
    "its middle line": ("<ret>" * 29, ["ge", "gc"], "19:1 normal 1/1", ""),
    "its last line": ("<ret>" * 29, ["ge", "gt", "gb"], "30:1 normal 1/1", ""),
    "the middle line of a window that the text ends in": ("<ret>" * 39, ["ge", "gt3jGed", "gtgc"], "19:1 normal 1/1", ""),
    "its last one": ("<ret>" * 39, ["ge", "gt3jGed", "gtgb"], "19:1 normal 1/1", ""),
    "and its first one": ("<ret>" * 39, ["ge", "gt3jGed", "gt"], "17:1 normal 1/1", ""),
    "the first line of a window that the text ends above": ("<ret>" * 39, ["ge", "gg2jGedgggt"], "2:1 normal 1/1", ""),
}


def last_status(output):
    """The mode line and the status of the last drawing."""
    line = next(line for line in reversed(output.splitlines()) if b'"draw_status"' in line)
    status, mode, _ = json.loads(line)["params"]
    text = lambda atoms: "".join(atom["contents"] for atom in atoms)
    return text(mode), text(status)


def is_after(program, report, name, lines, mode, status):
    ended = run_whole(program, ["-ui", "json"], b"".join(lines))
    expected = (f"*scratch* {mode} - client0", status)
    found = last_status(ended.output) if ended.status == 0 else ended.status
    report.check(f"keys: {name}", expected, found)


def newlines(count):
    """Lines that type so many newlines and go back to the first."""
    lines = [keys_line("i")]
    while count > 0:
        some = min(count, RETURNS_A_LINE)
        lines.append(keys_line("<ret>" * some))
        count -= some
    return [*lines, keys_line("<esc>gg")]


def run(program, report):
    for name, (text, keys, mode, status) in ROWS.items():
        lines = [keys_line(f"i{text}<esc>gg"), *map(keys_line, keys)]
        is_after(program, report, name, lines, mode, status)
    # as many selections as there may be, and one more: of so many newlines the text has one more
    all_lines = newlines(MAX_SELECTIONS - 1)
    is_after(program, report, "as many selections as there may be", [*all_lines, keys_line("%<a-s>")],
             f"{MAX_SELECTIONS}:1 normal {MAX_SELECTIONS}/{MAX_SELECTIONS}", "")
    for more in ("<a-S>", "C"):
        is_after(program, report, f"more than that by {more}", [*all_lines, keys_line("%<a-s>"), keys_line(more)],
                 f"{MAX_SELECTIONS}:1 normal {MAX_SELECTIONS}/{MAX_SELECTIONS}", "too many selections")
    one_more = newlines(MAX_SELECTIONS)
    is_after(program, report, "one more selection", [*one_more, keys_line("%<a-s>")],
             f"{MAX_SELECTIONS + 1}:1 normal 1/1", "too many selections")
    # as many groups as a tree has room for beside its first text, and one more; then that one is taken back all the same
    groups = [keys_line("ix<esc>" * (MAX_GROUPS // 3))] * 3
    is_after(program, report, "one group more than the undo tree has room for", [*groups, keys_line("iy")],
             "1:100000 insert 1/1", "undo tree full")
    is_after(program, report, "a full undo tree goes back", [*groups, keys_line("iy<esc>u")], "1:99999 normal 1/1", "")
