"""The parts of the front end in `examples`, without a terminal: what keys are read, what faces are written, and what is painted."""
import itertools
import json
import pathlib
import random
import re
import sys
import unicodedata

from drawings import DEFAULT, METHOD, atom, drawing, face, keys_line, opening
from emulated import Emulated
from processes import run_whole, run_with_files

sys.path.insert(0, str(pathlib.Path(__file__).resolve().parent.parent / "examples"))

from terminal import boxes, cells, faces, keys, requests, screen, view, widths
from terminal.window import Window

# what a terminal sends, and the keys that it is
TYPED = {
    "aÄ漢": ["a", "Ä", "漢"], " <>+-;%'\"": ["<space>", "<lt>", "<gt>", "<plus>", "<minus>", "<semicolon>", "<percent>", "<quote>", "<dquote>"],
    "\r\t\x7f\x1b": ["<ret>", "<tab>", "<backspace>", "<esc>"], "\x01\n\x1a": ["<c-a>", "<c-j>", "<c-z>"],
    "\0\x1d\x1e\x1f": ["<c-space>", "<c-]>", "<c-^>", "<c-_>"], "\x1ba\x1b:\x1b;\x1b ": ["<a-a>", "<a-:>", "<a-semicolon>", "<a-space>"],
    "\x1b\r\x1b\x7f": ["<a-ret>", "<a-backspace>"], "\x1b\x01": ["<c-a-a>"], "\x1b\x1b[A": ["<esc>", "<up>"],
    "\x1b[A\x1b[B\x1b[C\x1b[D\x1b[H\x1b[F": ["<up>", "<down>", "<right>", "<left>", "<home>", "<end>"],
    "\x1bOA\x1bOP\x1bOS": ["<up>", "<F1>", "<F4>"], "\x1b[15~\x1b[24~": ["<F5>", "<F12>"],
    "\x1b[3~\x1b[5~\x1b[6~\x1b[1~\x1b[4~": ["<del>", "<pageup>", "<pagedown>", "<home>", "<end>"],
    "\x1b[1;2C\x1b[1;3C\x1b[1;5C\x1b[1;8C\x1b[3;5~": ["<s-right>", "<a-right>", "<c-right>", "<c-a-s-right>", "<c-del>"], "\x1b[Z": ["<s-tab>"],
    "\x1b[97;5u\x1b[97;6u\x1b[106;5u\x1b[27u": ["<c-a>", "<c-A>", "<c-j>", "<esc>"], "\x1b[59:58;4u\x1b[59;3u": ["<a-:>", "<a-semicolon>"],
    "\x1b[13;2u\x1b[9;5u\x1b[32;2u\x1b[127;3u": ["<s-ret>", "<c-tab>", "<space>", "<a-backspace>"], "\x1b[57417u": ["<left>"],
    "\x1b[27;5;59~": ["<c-semicolon>"], "\x1b[97;69u": ["<c-a>"], "\x1b[I\x1b[O\x1b[?1;2c\x1b[25~\x1b[57399u": [], "\x85": [],
    "\x1b[200~a\r\nb\x1b[201~c": [keys.Paste("a\r\nb"), "c"], "\x1b[<0;3;4M": [keys.Mouse("mouse_press", ("left",), 3, 2)],
    "\x1b[<2;1;1m": [keys.Mouse("mouse_release", ("right",), 0, 0)], "\x1b[<35;9;1M\x1b[<32;9;1M": [keys.Mouse("mouse_move", (), 0, 8)] * 2,
    "\x1b[<64;1;1M": [keys.Mouse("scroll", (-3,), 0, 0)], "\x1b[<65;1;1M": [keys.Mouse("scroll", (3,), 0, 0)], "\x1b[<66;1;1M": [],
}
# the ends of what was typed that may be the beginning of a key, and the keys that they are if nothing follows
BEGUN = {"\x1b": ["<esc>"], "\x1b[": ["<a-[>"], "\x1bO": ["<a-O>"], "\x1b[1;5": ["<a-[>", "1", "<semicolon>", "5"]}
STYLES = {
    faces.PLAIN: "\x1b[0m",
    faces.Face("red", "bright-blue"): "\x1b[0;31;104m",
    faces.Face("bright-black", "white", attributes=("bold", "dim", "italic", "underline", "blink", "reverse", "strikethrough")): "\x1b[0;1;2;3;4;5;7;9;90;47m",
    faces.Face("rgb:ff8000", "#102030"): "\x1b[0;38;2;255;128;0;48;2;16;32;48m",
    faces.Face("rgba:ff800080"): "\x1b[0;38;2;255;128;0m",
    faces.Face(underline="green", attributes=("curly_underline", "final_fg")): "\x1b[0m\x1b[4:3m\x1b[58:5:2m",
    faces.Face(underline="#ff0000", attributes=("double_underline",)): "\x1b[0m\x1b[4:2m\x1b[58:2::255:0:0m",
    faces.Face("no-such-colour", "bright-"): "\x1b[0m",
}
OF_256 = {
    faces.Face("#ff8700", "#000000", "#0000ff"): "\x1b[0;38;5;208;48;5;16m\x1b[58:5:21m", faces.Face("#808080"): "\x1b[0;38;5;244m",
    faces.Face("#fefefe", "#0b0b0b"): "\x1b[0;38;5;231;48;5;232m",
}
F = faces.Face
MERGED = {
    (F("red", "blue"), F("default", "green")): F("red", "green"),
    (F("red", attributes=("final_fg",)), F("green", "blue")): F("red", "blue", attributes=("final_fg",)),
    (F("red", attributes=("final_fg",)), F("green", attributes=("final_fg",))): F("green", attributes=("final_fg",)),
    (F("red", attributes=("final_fg",)), F(attributes=("final_fg",))): F(attributes=("final_fg",)),
    (F(bg="red", attributes=("final_bg",)), F(bg="blue")): F(bg="red", attributes=("final_bg",)),
    (F(attributes=("bold",)), F(attributes=("italic",))): F(attributes=("bold", "italic")),
    (F(attributes=("bold", "final_attr")), F(attributes=("italic",))): F(attributes=("bold", "final_attr")),
    (F(attributes=("bold",)), F(attributes=("italic", "final_attr"))): F(attributes=("italic", "final_attr")),
    (F(underline="red"), F(underline="blue")): F(underline="blue"),
    (F("#000000"), F("rgba:ffffff80")): F("#808080"),
    (F("black"), F("rgba:ffffff80")): F("rgba:ffffff80"),
}


def run(program, report):
    for checks in (typed, begun, styles, nearest, merged, rows, paintings, places, box_places, windows, methods):
        checks(report)
    known(program, report)
    counted(program, report)


def typed(report):
    """What a terminal sends is read as these keys, at once or byte by byte."""
    for text, wanted in TYPED.items():
        keyboard = keys.Keyboard()
        keyboard.take(text.encode())
        report.check(f"front end: what is typed: {text!r}", wanted, keyboard.events(is_late=True))
        keyboard, found = keys.Keyboard(), []
        for byte in text.encode():
            keyboard.take(bytes([byte]))
            found += keyboard.events()
        report.check(f"front end: byte by byte: {text!r}", wanted, found + keyboard.events(is_late=True))
    report.check("front end: the keys of a text", ["a", "<ret>", "<tab>", "b", "<ret>", "<lt>"], keys.keys_of("a\r\n\tb\n\x07<"))


def begun(report):
    for text, wanted in BEGUN.items():
        keyboard = keys.Keyboard()
        keyboard.take(text.encode())
        report.check(f"front end: more may come of {text!r}", ([], True), (keyboard.events(), keyboard.waits()))
        report.check(f"front end: no more came of {text!r}", wanted, keyboard.events(is_late=True))


def known(program, report):
    """Each key that is sent is one that the server knows."""
    texts = sorted({key for found in TYPED.values() for key in found if isinstance(key, str)})
    output = run_whole(program, ["-ui", "json"], keys_line(*texts)).output
    report.check("front end: keys that the server doesn't know", [], [line for line in output.splitlines() if b'"error"' in line])


def counted(program, report):
    """Characters take as many cells as the server counts: behind each one a cursor stands at that column."""
    near = {number for text in widths.OTHERS.values() for first, last in widths.ranges(text) for number in range(first - 1, last + 2)}
    some = [*range(0xA0, 0x600), *range(0x2000, 0x2300), *range(0x3000, 0x3200), *range(0xFE00, 0xFF00), *range(0x1F300, 0x1F400)]
    characters = [chr(number) for number in sorted(near.union(some)) if unicodedata.category(chr(number)) not in ("Cn", "Cs", "Cc")]
    text = "".join(f"{character}|\n" for character in characters)
    lines = b"".join(keys_line("gl" if number == 0 else "jgl") for number in range(len(characters)))
    output = run_with_files(program, ["-ui", "json", "all.txt"], lines, {"all.txt": text.encode()})[0].output
    columns = [int(found) for found in re.findall(rb'"set_cursor","params":\["buffer",\{"column":(\d+)', output)][1:]
    wrong = [(character, column) for character, column in zip(characters, columns) if widths.width(character) != column]
    report.check("front end: characters that the server counts otherwise", ([], len(characters)), (wrong, len(columns)))


def styles(report):
    for has_all, wanted in ((True, STYLES), (False, OF_256)):
        for of, text in wanted.items():
            report.check(f"front end: the style of {of}", text, faces.Pen(has_all).style(of))


def nearest(report):
    """The nearest of the 240 colours is that one; of two that are as near, either."""
    numbers = {16 + 36 * r + 6 * g + b: [faces.LEVELS[step] for step in (r, g, b)] for r, g, b in itertools.product(range(6), repeat=3)}
    numbers |= {232 + step: [grey] * 3 for step, grey in enumerate(faces.GREYS)}
    draw = random.Random(1)
    colours = [[draw.randrange(256) for _ in range(3)] for _ in range(300)]
    least = [min(faces.distance(one, colour) for one in numbers.values()) for colour in colours]
    report.check("front end: the nearest colours", least, [faces.distance(numbers[faces.nearest(*colour)], colour) for colour in colours])


def merged(report):
    for (base, over), wanted in MERGED.items():
        report.check(f"front end: {over} over {base}", wanted, faces.merged(base, over))


def row(text):
    found = []
    cells.put(found, text, "s")
    return found


def rows(report):
    """Characters take their cells, and what is cut is spaces."""
    for text, wanted in {
            "ab": "a.b", "a漢b": "a.漢..b", "e\u0301x": "e\u0301.x", "漢\u0301": "漢\u0301.", "\u0301a": "a", "a\tb": "a. . . . . . . .b", "a\n": "a. ",
            "\x1b[": "\ufffd.["}.items():
        report.check(f"front end: the cells of {text!r}", wanted, ".".join(one for one, _ in row(text)))
    for first, count, wanted in ((0, 4, "a漢b"), (0, 2, "a "), (2, 2, " b"), (1, 2, "漢"), (1, 1, " "), (0, 6, "a漢b  "), (9, 2, "  ")):
        report.check(f"front end: {count} cells from {first} on", wanted, cells.text_of(cells.shown(row("a漢b"), first, count, "s")))


def random_row(draw, columns):
    found = []
    while len(found) < columns:
        text = draw.choice(["a", "b", " ", " ", " ", "é", "e\u0301", "漢", "字", "🙂"])
        cells.put(found, text * draw.choice([1, 1, 5]), draw.choice(["\x1b[0m", "\x1b[0m", "\x1b[0;31m", "\x1b[0m\x1b[4:3m"]))
    return cells.shown(found, 0, columns, "\x1b[0m")


def paintings(report):
    """After any pictures a terminal shows the last one; where it has characters of other widths, all the others stand in their places."""
    for seed, narrow in itertools.product(range(40), (False, True)):
        report.check(f"front end: painting {seed}", [], list(wrong_cells(random.Random(seed), narrow)))
    draw, painted = random.Random(1), screen.Screen()
    terminal, picture = Emulated(2, 30, widths.width), [random_row(draw, 30), [("y", "\x1b[0m")] * 30]
    terminal.take(painted.changes(screen.Picture(picture, (0, 0))))
    report.check("front end: what is there isn't painted again", "", painted.changes(screen.Picture([list(one) for one in picture], (0, 0))))
    terminal.written = 0
    terminal.take(painted.changes(screen.Picture([picture[0], [("x", "\x1b[0m"), *picture[1][1:]]], (0, 0))))
    report.check("front end: no more is painted than what changed", 1, terminal.written)


def wrong_cells(draw, narrow):
    """The cells that are wrong after any of these pictures, and cursors that are."""
    painted, terminal = screen.Screen(), Emulated(5, 30, (lambda character: min(1, widths.width(character))) if narrow else widths.width)
    rows = [random_row(draw, 30) for _ in range(5)]
    for _ in range(12):
        rows = [random_row(draw, 30) if draw.random() < 0.2 else changed(draw, one) for one in rows]
        cursor, shape = draw.choice([None, (draw.randrange(5), draw.randrange(30))]), draw.choice([screen.BLOCK, screen.BAR])
        terminal.take(painted.changes(screen.Picture(rows, cursor, shape)))
        for row, column in itertools.product(range(5), range(30)):
            wanted, came = rows[row][column], terminal.cells[row][column]
            if wanted != came and not (narrow and (not wanted[0] or not wanted[0].isascii())):
                yield row, column, wanted, came
        if (terminal.cursor(), terminal.shape) != (cursor, shape):
            yield cursor, shape, terminal.cursor(), terminal.shape


def changed(draw, old):
    """A row with another character in one place."""
    at = draw.randrange(len(old))
    if not old[at][0] or at + 1 < len(old) and not old[at + 1][0]:
        return old
    return [*old[:at], (draw.choice("xyz "), old[at][1]), *old[at + 1:]]


def drawn(lines, cursor=(0, 0), where="buffer", status=(), mode="f 1:1 normal 1/1 - client0", more=b""):
    found = view.Drawing()
    for line in (more + drawing([[atom(text + "\n", DEFAULT)] for text in lines], mode, cursor, status, where)).splitlines():
        part = json.loads(line)
        found.take(part["method"], part["params"])
    return found


def seen(size, *drawings, window_rows=24):
    """The texts and the cursor that a terminal of that size shows after these drawings."""
    shown = view.View(faces.Pen(True))
    shown.resize(*size)
    for each in drawings:
        picture = shown.picture(each, window_rows)
    return [cells.text_of(one).rstrip() for one in picture.rows], picture.cursor


def places(report):
    """What is drawn is cut to the terminal's size so that the cursor is seen, and padded."""
    mode, lines = "f 1:1 normal 1/1 - client0", [f"line {number}" for number in range(24)]
    end = ["", "f 1:1 normal 1/1 - client0"]
    report.check("front end: below the last line", (["one", "~", "~", *end], (0, 2)), seen((5, 40), drawn(["one"], (0, 2))))
    report.check("front end: below a full window", (lines + [""] * 4 + end, (23, 0)), seen((30, 40), drawn(lines, (23, 0))))
    report.check("front end: a lower terminal", (lines[:3] + end, (1, 0)), seen((5, 40), drawn(lines, (1, 0))))
    low = drawn(lines, (10, 0))
    report.check("front end: it follows the cursor", (lines[8:11] + end, (2, 0)), seen((5, 40), low))
    report.check("front end: by as little as it must", (lines[8:11] + end, (0, 0)), seen((5, 40), low, drawn(lines, (8, 0))))
    report.check("front end: and back to what there is", (["one", "~", "~", *end], (0, 0)), seen((5, 40), low, drawn(["one"])))
    shorter = drawn(["one"], (0, 4), "prompt", [atom(":abc ", DEFAULT)])
    report.check("front end: also behind a prompt", (["one", "~", "~", ":abc", mode], (3, 4)), seen((5, 40), low, shorter))
    report.check("front end: to the right", ["e 0", "e 1", "~", "", "…t0"], seen((5, 3), drawn(lines[:2], (0, 5)))[0])
    report.check("front end: a prompt", ([*lines[:3], ":abc", mode], (3, 4)), seen((5, 40), drawn(lines, (0, 4), "prompt", [atom(":abc ", DEFAULT)], mode)))
    shown, cursor = seen((5, 3), drawn(lines, (0, 4), "prompt", [atom(":abc ", DEFAULT)]))
    report.check("front end: a long prompt", ("bc", (3, 2)), (shown[3], cursor))
    for size in itertools.product(range(1, 5), range(1, 5)):
        found, cursor = seen(size, drawn(["漢漢漢", "a"] * 12, (5, 2)))
        report.check(f"front end: a terminal of {size}", (size[0], True), (len(found), cursor is not None))
    insert = drawn(["one"], mode="f 1:1 insert 1/1 - client0")
    shapes = [view.View(faces.Pen(True)).picture(each, 24).shape for each in (insert, drawn(["one"]), drawn(["one"], mode=" 1:1 insert 1/1"))]
    report.check("front end: the cursor's shapes", [screen.BAR, screen.BLOCK, screen.BLOCK], shapes)


def box_places(report):
    """Boxes are put where they belong, and taken away."""
    line = lambda *given: (json.dumps({"jsonrpc": "2.0", "method": given[0], "params": given[1:]}) + "\n").encode()
    info = lambda style, row, column: line("info_show", [atom("T", DEFAULT)], [[atom("hint", DEFAULT)], []], {"line": row, "column": column}, DEFAULT, style)
    box, text = ["╭─T────╮", "│ hint │", "│      │", "╰──────╯"], ["a" * 10] * 6
    with_box = lambda top, left, size: [row[:left] + box[n - top] + row[left + 8:] if 0 <= n - top < 4 else row for n, row in enumerate(size)]
    for style, place, at in (
            ("prompt", (0, 0), (2, 2)), ("inline", (0, 1), (1, 1)), ("inline", (5, 9), (1, 2)), ("inlineAbove", (4, 0), (0, 0)), ("modal", (0, 0), (1, 1))):
        came = seen((8, 10), drawn(text, more=info(style, *place)))[0][:6]
        report.check(f"front end: a box, {style} {place}", with_box(*at, text), came)
    both = drawn(text, more=info("prompt", 0, 0) + line("info_hide"))
    report.check("front end: a box that is hidden", text, seen((8, 10), both)[0][:6])
    wide = drawn(["a漢漢漢漢"] * 6, more=info("prompt", 0, 0))
    report.check("front end: half of a wide character under a box", "a ╭─T────╮", seen((8, 10), wide)[0][2])
    items = [[atom(f"item {number}", DEFAULT)] for number in range(12)]
    menu = lambda style: line("menu_show", items, {"line": 0, "column": 1}, face("black", "white"), DEFAULT, style)
    for chosen, wanted in ((-1, range(6)), (2, range(6)), (7, range(2, 8)), (11, range(6, 12)), (12, range(6))):
        came = seen((8, 7), drawn(text, more=menu("prompt") + line("menu_select", chosen)))[0][:6]
        report.check(f"front end: a menu with {chosen} chosen", [f"item {number}" for number in wanted], [row.rstrip("a") for row in came])
    report.check("front end: a menu beside its place", "aitem 0aaa", seen((14, 10), drawn(["a" * 10] * 12, more=menu("inline")))[0][1])
    report.check("front end: no menu any more", text, seen((8, 10), drawn(text, more=menu("prompt") + line("menu_hide")))[0][:6])
    shown = view.View(faces.Pen(True))
    shown.resize(8, 10)
    picture = shown.picture(drawn(text, more=menu("prompt") + line("menu_select", 1)), 24)
    styles_there = [cells_of[0][1] for cells_of in picture.rows[:6]]
    report.check("front end: the chosen item has its face", [""] + ["30;47"] + [""] * 4, [style[4:-1] for style in styles_there])
    small = boxes.info_rows([atom("title", DEFAULT)], [[atom("a long line of text", DEFAULT)]] * 9, DEFAULT, faces.Pen(True), 4, 9)
    report.check("front end: a box is no larger than its room", (4, {9}), (len(small), set(map(len, small))))


class Ends:
    """A server and a terminal that only note what they are told."""

    def __init__(self):
        self.asked, self.mouse, self.coming = [], [], []

    def size(self):
        return 40, 100

    def set_mouse(self, is_on):
        self.mouse.append(is_on)

    def send(self, given):
        self.asked += [(line["method"], *line["params"]) for line in map(json.loads, given.splitlines())]

    def lines(self):
        return self.coming.pop(0).splitlines()

    def write(self, _text):
        pass


def window_after(played, *given, sent=opening(drawing([[atom("\n", DEFAULT)]], "f 1:1 normal 1/1 - client0", (0, 0)))):
    """What a window asks for, and what it says of the mouse, where so much comes and is typed."""
    ends = Ends()
    ends.coming.append(sent)
    window = Window(ends, ends, requests.Requests(played))
    window.hear_server()
    window.show()
    window.send(given)
    return ends


def windows(report):
    """What a window asks for."""
    mouse = [
        keys.Mouse("mouse_press", ("left",), 3, 2), keys.Mouse("scroll", (-3,), 0, 0), keys.Mouse("mouse_press", ("left",), 38, 2),
        keys.Mouse("mouse_move", (), 0, 1)]
    all_methods = ("keys", "resize", "scroll", "mouse_move", "mouse_press", "mouse_release")
    ends = window_after(all_methods, "a", "<ret>", *mouse, "b")
    wanted = [("resize", 38, 100), ("keys", "a<ret>"), ("mouse_press", "left", 3, 2), ("scroll", -3, 0, 0), ("mouse_move", 0, 1), ("keys", "b")]
    report.check("front end: a server that plays all", (wanted, [True]), (ends.asked, ends.mouse))
    ends = window_after(("keys",), "a", *mouse, "b")
    report.check("front end: a server that plays keys", ([("keys", "a"), ("keys", "b")], [False]), (ends.asked, ends.mouse))
    sent = opening(drawing([[atom("\n", DEFAULT)]], "f 1:1 normal 1/1 - client0", (0, 0))) + METHOD
    ends = window_after(all_methods, "a", *mouse, sent=sent)
    report.check("front end: a server that refuses a method", ([("resize", 38, 100), ("keys", "a")], [True, False]), (ends.asked, ends.mouse))
    for mode, text, wanted in (("insert", "a\nb", "a<ret>b"), ("normal", "a\nb", "ia<ret>b<esc>"), ("prompt", "a\r\nb\n", "a<space>b")):
        sent = opening(drawing([[atom("\n", DEFAULT)]], f"f 1:1 {mode} 1/1 - client0", (0, 0)))
        report.check(f"front end: a paste in {mode} mode", [("keys", wanted)], window_after(("keys",), keys.Paste(text), sent=sent).asked)
    long = window_after(("keys",), *["a"] * 10000).asked
    report.check("front end: many keys in several lines", [4096, 4096, 1808], [len(texts) for _, texts in long])


def methods(report):
    """What is sent is what the page of the protocol says is played."""
    from table_checks import page
    told = page("PROTOCOL.md").partition("\n## Requests\n")[2].partition("\n## ")[0]
    named = set(re.findall(r"`(\w+)`", told)) & {"keys", "resize", "scroll", "mouse_move", "mouse_press", "mouse_release", "menu_select"}
    idle = re.findall(r'"method":"(\w+)"[^`]*` isn\'t answered at all', told)
    report.check("front end: docs/PROTOCOL.md names the method that plays nothing", ["menu_select"], idle)
    report.check("front end: docs/PROTOCOL.md names the methods that are sent", sorted(requests.PLAYED), sorted(named - set(idle)))
