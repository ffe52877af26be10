"""Windows of other sizes: what is drawn behind each `resize`, and behind keys in such a window."""
from drawings import CURSOR, CURSOR_ON_NEWLINE, DEFAULT, OPENING, PARAMS, atom, drawing, keys_line, resize_line
from processes import run_whole

EOL = atom("\n", CURSOR_ON_NEWLINE)


def row(before, at, behind=""):
    """A line with the cursor on a character."""
    parts = [(before, DEFAULT), (at, CURSOR), (behind, DEFAULT)]
    return [atom(text, face) for text, face in parts if text]


def plain(text):
    return [atom(text, DEFAULT)]


def shown(lines, place, cursor, buffer="*scratch*", client=0):
    return drawing(lines, f"{buffer} {place} normal 1/1 - client{client}", cursor)


# lines that are sent one after another, and what each is answered
SIZES = {
    "fewer rows and columns": [
        (keys_line("iabcdef<ret>x<esc>"), shown([plain("abcdef\n"), [atom("x", DEFAULT), EOL]], "2:2", (1, 1))),
        (resize_line(1, 3), shown([[atom("x", DEFAULT), EOL]], "2:2", (0, 1))),
        (keys_line("gg"), shown([row("", "a", "bc")], "1:1", (0, 0))),
        (keys_line("gl"), shown([row("de", "f")], "1:6", (0, 2))),
    ],
    "first line and column stay": [
        (keys_line("ia<ret>b<ret>cdefgh<esc>"), shown([plain("a\n"), plain("b\n"), [atom("cdefgh", DEFAULT), EOL]], "3:7", (2, 6))),
        (resize_line(2, 4), shown([[], [atom("fgh", DEFAULT), EOL]], "3:7", (1, 3))),
        (resize_line(24, 80), shown([[], [atom("fgh", DEFAULT), EOL]], "3:7", (1, 3))),
        (keys_line("h"), shown([[], row("fg", "h", "\n")], "3:6", (1, 2))),
        (keys_line("gg"), shown([row("", "a", "\n"), plain("b\n"), plain("cdefgh\n")], "1:1", (0, 0))),
    ],
    "what is cut": [
        (keys_line("i日本<esc>gg"), shown([row("", "日", "本\n")], "1:1", (0, 0))),
        (resize_line(1, 3), shown([row("", "日", " ")], "1:1", (0, 0))),
        (resize_line(1, 1), shown([[atom(" ", CURSOR)]], "1:1", (0, 0))),
        (resize_line(1, 5), shown([row("", "日", "本\n")], "1:1", (0, 0))),
    ],
    "numbers that are brought in": [
        (resize_line(0, 0), shown([[EOL]], "1:1", (0, 0))),
        (keys_line("iab<esc>"), shown([[EOL]], "1:3", (0, 0))),
        (resize_line(1001, 2 ** 64 - 1), shown([[EOL]], "1:3", (0, 0))),
        (keys_line("gg"), shown([row("", "a", "b\n")], "1:1", (0, 0))),
        (resize_line(2 ** 64, 1), PARAMS),
        (resize_line(-1, 1), PARAMS),
        (resize_line(1.0, 1), PARAMS),
        (resize_line(1, 2, 3), PARAMS),
        (resize_line("1", 2), PARAMS),
        (resize_line(), PARAMS),
        (keys_line(), shown([row("", "a", "b\n")], "1:1", (0, 0))),
    ],
    "a page is the window": [
        (keys_line("ia<ret>b<ret>c<ret>d<esc>gg"), shown([row("", "a", "\n"), plain("b\n"), plain("c\n"), plain("d\n")], "1:1", (0, 0))),
        (resize_line(2, 80), shown([row("", "a", "\n"), plain("b\n")], "1:1", (0, 0))),
        (keys_line("<pagedown>"), shown([plain("b\n"), row("", "c", "\n")], "3:1", (1, 0))),
        (keys_line("gt"), shown([row("", "b", "\n"), plain("c\n")], "2:1", (0, 0))),
        (keys_line("gb"), shown([plain("b\n"), row("", "c", "\n")], "3:1", (1, 0))),
    ],
    "another buffer": [
        (resize_line(1, 2), shown([[EOL]], "1:1", (0, 0))),
        (keys_line(":edit n<ret>"), shown([[EOL]], "1:1", (0, 0), "n")),
        (keys_line("iabc<esc>gg"), shown([row("", "a", "b")], "1:1", (0, 0), "n")),
    ],
}


def run(program, report):
    for name, turns in SIZES.items():
        ended = run_whole(program, ["-ui", "json"], b"".join(line for line, _ in turns))
        report.check_run(f"sizes: {name}", 0, OPENING + b"".join(answer for _, answer in turns), ended)
