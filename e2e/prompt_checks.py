"""Keys in a prompt, and what the drawing then says: the line with its cursor, where that stands, and what `<ret>` makes of it."""
import json

from drawings import PROMPT, STATUS_CURSOR, STATUS_LINE, atom, keys_line, request
from processes import run_whole

# keys that are typed after `i`, a text and `<esc>gg`; what then stands before the prompt's cursor, under it and behind it;
# the cursor's column
ROWS = {
    # characters
    "nothing was typed": ("", [":"], "", " ", "", 1),
    "behind what was typed": ("", [":ab"], "ab", " ", "", 3),
    "before the last": ("", [":ac<left>b"], "ab", "c", "", 3),
    "before the first": ("", [":bc<home>a"], "a", "b", "c", 2),
    "line by line": ("", [":ac", "<left>", "b"], "ab", "c", "", 3),
    "wide ones": ("", [":漢字<left>"], "漢", "字", "", 3),
    # erasing
    "the last one erased": ("", [":ab<backspace>"], "a", " ", "", 2),
    "the one before the cursor erased": ("", [":abc<left><backspace>"], "a", "c", "", 2),
    "nothing is before the first": ("", [":ab<home><backspace>"], "", "a", "b", 1),
    "nothing is in an empty prompt": ("", [":<backspace><del>"], "", " ", "", 1),
    "the one at the cursor erased": ("", [":abc<home><del>"], "", "b", "c", 1),
    "the one at the cursor in the middle": ("", [":abc<left><left><del>"], "a", "c", "", 2),
    "nothing is behind the last": ("", [":ab<del>"], "ab", " ", "", 3),
    # moving
    "one back": ("", [":abc<left><left>"], "a", "b", "c", 2),
    "no further back than the first": ("", [":ab<left><left><left>"], "", "a", "b", 1),
    "and on again": ("", [":abc<home><right>"], "a", "b", "c", 2),
    "no further than behind the last": ("", [":ab<right><left><right><right>"], "ab", " ", "", 3),
    "to the first": ("", [":abc<home>"], "", "a", "bc", 1),
    "and behind the last": ("", [":abc<home><end>"], "abc", " ", "", 4),
    "keys without a row": ("", [":ab<left><tab><up><down><pageup><c-u><a-b>"], "a", "b", "", 2),
    # registers
    "a register": ("xyz", ["x\"ay", ":<c-r>a"], "xyz\n", " ", "", 5),
    "a register at the cursor": ("xy", ["y", ":ab<left><c-r>\""], "ax", "b", "", 3),
    "two strings": ("xy<ret>z", ["%<a-s>_y", ":a<c-r>\""], "axy z", " ", "", 6),
    "two strings at the first character": ("x<ret>y", ["%<a-s>_y", ":b<home><c-r>\""], "x y", "b", "", 4),
    "the texts of the selections": ("x<ret>y", ["%<a-s>_", ":<c-r>."], "x y", " ", "", 4),
    "the numbers of the selections": ("x<ret>y", ["%<a-s>_", ":<c-r>#"], "1 2", " ", "", 4),
    "the name of the buffer": ("", [":<c-r>%"], "*scratch*", " ", "", 10),
    "what was typed before": ("", [":xx<ret>:<c-r>:<left>"], "x", "x", "", 2),
    "a register that holds nothing": ("", [":ab<left><c-r>z"], "a", "b", "", 2),
    "no such register": ("", [":ab<left><c-r>!"], "a", "b", "", 2),
    "typing goes on then": ("", [":ab<left><c-r>!x"], "ax", "b", "", 3),
    "no register after all": ("", [":ab<c-r><esc>c"], "abc", " ", "", 4),
    "nor by a key that moves": ("", [":ab<c-r><left>c"], "abc", " ", "", 4),
    "it waits for the next line": ("x", ["y", ":<c-r>", "\"a"], "xa", " ", "", 3),
}

# what is typed, and the status that its `<ret>` leaves
ENDS = {
    "all that was typed is run": (":bc<home>a<ret>", "no such command: abc"),
    "from the middle too": (":abcd<left><left><ret>", "no such command: abcd"),
    "what was erased isn't": (":abxc<left><backspace><ret>", "no such command: abc"),
    "register `:` holds all of it": (":bc<home>a<ret>:<c-r>:d<ret>", "no such command: abcd"),
    "a prompt that was left is empty": (":abc<left><esc>:x<ret>", "no such command: x"),
}


def expected(before, under, behind, column):
    """The status and the cursor of a prompt, as they are sent."""
    shown = [(":", PROMPT), (before, STATUS_LINE), (under, STATUS_CURSOR), (behind, STATUS_LINE)]
    status = [atom(contents, face) for contents, face in shown if contents]
    return status, request("set_cursor", "prompt", {"column": column, "line": 0})


def run(program, report):
    for name, (text, keys, before, under, behind, column) in ROWS.items():
        ended = run_whole(program, ["-ui", "json"], b"".join([keys_line(f"i{text}<esc>gg"), *map(keys_line, keys)]))
        found = ended.status
        if ended.status == 0:
            lines = ended.output.splitlines(keepends=True)[-4:]
            found = json.loads(lines[1])["params"][0], lines[2]
        report.check(f"prompts: {name}: {''.join(keys)}", expected(before, under, behind, column), found)
    for name, (keys, said) in ENDS.items():
        ended = run_whole(program, ["-ui", "json"], keys_line(keys))
        found = ended.status
        if ended.status == 0:
            found = json.loads(ended.output.splitlines()[-3])["params"][0][0]["contents"]
        report.check(f"prompts: {name}: {keys}", said, found)
    typed, mended = [run_whole(program, ["-ui", "json"], keys_line(keys) + keys_line("ix")).output for keys in (":quit<ret>", ":qut<left>i<ret>")]
    report.check_output("prompts: a command that was mended is granted", typed, mended)
