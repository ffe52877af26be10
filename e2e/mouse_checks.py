"""What is done with a mouse and a wheel: what is drawn behind each such line, and behind keys between them."""
from drawings import CURSOR, CURSOR_ON_NEWLINE, DEFAULT, ERROR, OPENING, atom, drawing, face, keys_line, request, resize_line
from processes import run_whole

SELECTION = face("white", "blue")
EOL = atom("\n", CURSOR_ON_NEWLINE)


def row(*parts):
    """A line of texts in faces."""
    return [atom(text, of) for text, of in parts]


def plain(text):
    return row((text, DEFAULT))


def shown(lines, place, cursor, status=(), mode="normal"):
    return drawing(lines, f"*scratch* {place} {mode} 1/1 - client0", cursor, status)


TYPED = (keys_line("iab<ret>cd<esc>gg"), shown([row(("a", CURSOR), ("b\n", DEFAULT)), plain("cd\n")], "1:1", (0, 0)))
ON_D = shown([plain("ab\n"), row(("c", DEFAULT), ("d", CURSOR), ("\n", DEFAULT))], "2:2", (1, 1))
ON_A = shown([row(("a", CURSOR), ("b\n", DEFAULT)), plain("cd\n")], "1:1", (0, 0))
BACK_TO_A = shown([row(("a", CURSOR), ("b\n", SELECTION)), row(("cd", SELECTION), ("\n", DEFAULT))], "1:1", (0, 0))
BACK_TO_C = shown([plain("ab\n"), row(("c", CURSOR), ("d", SELECTION), ("\n", DEFAULT))], "2:1", (1, 0))

X, X_WITH_CURSOR = plain("x\n"), row(("x", CURSOR), ("\n", DEFAULT))

# lines that are sent one after another, and what each is answered
MOUSE = {
    "a press, a drag and its end": [
        TYPED,
        (request("mouse_press", "left", 1, 1), ON_D),
        (request("mouse_move", 0, 0), BACK_TO_A),
        (request("mouse_release", 0, 0), BACK_TO_A),
        (request("mouse_move", 1, 0), BACK_TO_A),
        (request("mouse_press", "right", 1, 0), BACK_TO_C),
        (request("mouse_move", 0, 0), BACK_TO_C),
        (request("mouse_press", "middle", 0, 0), BACK_TO_C),
        (request("mouse_press", 0, 0), ON_A),
    ],
    "a key ends a drag": [
        TYPED,
        (request("mouse_press", 1, 1), ON_D),
        (keys_line("<c-x>"), ON_D),
        (request("mouse_move", 0, 0), ON_D),
    ],
    "far places": [
        TYPED,
        (request("mouse_press", 4294967295, 4294967295), shown([plain("ab\n"), row(("cd", DEFAULT), ("\n", CURSOR_ON_NEWLINE))], "2:3", (1, 2))),
        (request("mouse_press", 4294967295, 0), shown([plain("ab\n"), row(("c", CURSOR), ("d\n", DEFAULT))], "2:1", (1, 0))),
    ],
    "the main selection alone": [
        TYPED,
        (keys_line("%s[bd]<ret>"), drawing(
            [row(("a", DEFAULT), ("b", CURSOR), ("\n", DEFAULT)), row(("c", DEFAULT), ("d", CURSOR), ("\n", DEFAULT))],
            "*scratch* 2:2 normal 2/2 - client0", (1, 1))),
        (request("mouse_press", "right", 0, 0), BACK_TO_A),
    ],
    "numbers of lines": [
        (keys_line("iabcdef<ret>gh<esc>gg"), shown([row(("a", CURSOR), ("bcdef\n", DEFAULT)), plain("gh\n")], "1:1", (0, 0))),
        (keys_line(":addhl window/ number-lines<ret>"), shown([row(("1│", DEFAULT), ("a", CURSOR), ("bcdef\n", DEFAULT)), plain("2│gh\n")], "1:1", (0, 2))),
        (request("mouse_press", 0, 4), shown([row(("1│ab", DEFAULT), ("c", CURSOR), ("def\n", DEFAULT)), plain("2│gh\n")], "1:3", (0, 4))),
        (request("mouse_press", 1, 1), shown([plain("1│abcdef\n"), row(("2│", DEFAULT), ("g", CURSOR), ("h\n", DEFAULT))], "2:1", (1, 2))),
        (resize_line(2, 5), shown([plain("1│abc"), row(("2│", DEFAULT), ("g", CURSOR), ("h\n", DEFAULT))], "2:1", (1, 2))),
        (keys_line("gggl"), shown([row(("1│de", DEFAULT), ("f", CURSOR)), plain("2│")], "1:6", (0, 4))),
        (request("mouse_press", 0, 0), shown([row(("1│", DEFAULT), ("d", CURSOR), ("ef", DEFAULT)), plain("2│")], "1:4", (0, 2))),
        (request("mouse_press", 1, 0), shown([plain("1│cde"), [atom("2│", DEFAULT), EOL]], "2:3", (1, 2))),
    ],
    "a count stays": [
        (keys_line("iabcdef<esc>gg"), shown([row(("a", CURSOR), ("bcdef\n", DEFAULT))], "1:1", (0, 0))),
        (keys_line("3"), shown([row(("a", CURSOR), ("bcdef\n", DEFAULT))], "1:1", (0, 0))),
        (request("mouse_press", 0, 1), shown([row(("a", DEFAULT), ("b", CURSOR), ("cdef\n", DEFAULT))], "1:2", (0, 1))),
        (keys_line("l"), shown([row(("abcd", DEFAULT), ("e", CURSOR), ("f\n", DEFAULT))], "1:5", (0, 4))),
    ],
    "a key that waits goes on waiting": [
        TYPED,
        (keys_line("f"), ON_A),
        (request("mouse_press", 1, 1), ON_A),
        (request("scroll", 1), ON_A),
        (keys_line("c"), shown([row(("ab\n", SELECTION)), row(("c", CURSOR), ("d\n", DEFAULT))], "2:1", (1, 0))),
    ],
    "not in insert mode": [
        TYPED,
        (keys_line("i"), shown([row(("a", CURSOR), ("b\n", DEFAULT)), plain("cd\n")], "1:1", (0, 0), mode="insert")),
        (request("mouse_press", 1, 1), shown([row(("a", CURSOR), ("b\n", DEFAULT)), plain("cd\n")], "1:1", (0, 0), mode="insert")),
    ],
    "a status stays": [
        (keys_line(":nope<ret>"), shown([[EOL]], "1:1", (0, 0), [atom("no such command: nope", ERROR)])),
        (request("mouse_press", 0, 0), shown([[EOL]], "1:1", (0, 0), [atom("no such command: nope", ERROR)])),
        (request("scroll", 1, 0, 0), shown([[EOL]], "1:1", (0, 0), [atom("no such command: nope", ERROR)])),
        (keys_line("l"), shown([[EOL]], "1:1", (0, 0))),
    ],
    "scrolling": [
        (resize_line(10, 80), shown([[EOL]], "1:1", (0, 0))),
        (keys_line("ix" + "<ret>x" * 29 + "<esc>gg"), shown([X_WITH_CURSOR] + [X] * 9, "1:1", (0, 0))),
        (request("scroll", 5), shown([X_WITH_CURSOR] + [X] * 9, "6:1", (0, 0))),
        (request("scroll", -5), shown([X] * 5 + [X_WITH_CURSOR] + [X] * 4, "6:1", (5, 0))),
        (request("scroll", 100), shown([X_WITH_CURSOR], "30:1", (0, 0))),
        (request("scroll", -2147483648), shown([X] * 9 + [X_WITH_CURSOR], "10:1", (9, 0))),
    ],
    "a menu": [
        (request("menu_select", 0), b""),
        (keys_line(), shown([[EOL]], "1:1", (0, 0))),
    ],
}


def run(program, report):
    for name, turns in MOUSE.items():
        ended = run_whole(program, ["-ui", "json"], b"".join(line for line, _ in turns))
        report.check_run(f"mouse: {name}", 0, OPENING + b"".join(answer for _, answer in turns), ended)
