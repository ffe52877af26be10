"""The front end in `examples` in real terminals, which are windows of tmux. Where there is no tmux that is said, and they aren't run."""
import json
import os
import pathlib
import shlex
import signal
import socket
import subprocess
import sys

import tmux
from connections import SECONDS, play
from drawings import CURSOR, DEFAULT, METHOD, atom, drawing, face, opening
from styles import told

EXAMPLES = pathlib.Path(__file__).resolve().parent.parent / "examples"
FRONT_END = [sys.executable, str(EXAMPLES / "terminal.py")]
ESC = "\x1b"
# a shell around the front end: the terminal must be left as it was found
AROUND = "echo before; stty -g | cksum; {}; echo status $?; stty -g | cksum; cat -v"


def run(program, server, report):
    without_terminal(report)
    if not tmux.IS_THERE:
        report.not_run("terminal", "no tmux")
        return
    with tmux.Tmux() as windows:
        opened = Opener(windows, {"KAK": str(program), "KAKD": str(server)})
        for checks in (
                an_editor, the_builder, two_windows, keys, real_faces, all_faces, a_box, all_requests, the_mouse, two_mice, sizes, wide_characters, pastes, killed_server, killed_editor,
                ways_out, faults):
            play(server, report, checks, opened, name=f"terminal: {checks.__name__}", files={"notes.txt": b"milk\nbread\n"})


def without_terminal(report):
    """It needs a terminal, and says how it is called."""
    for words, status, told in (
            ([], 1, b"terminal.py: this is no terminal\n"), (["a", "b"], 2, b""), (["-s"], 2, b""), (["-s", "a/b"], 2, b""), (["--help"], 2, b"")):
        done = subprocess.run([*FRONT_END, *words], stdin=subprocess.DEVNULL, capture_output=True, timeout=SECONDS)
        has_help = b"examples/terminal.py -s SESSION" in done.stdout
        report.check(f"terminal: the words {words}", (status, told, status == 2), (done.returncode, done.stderr, has_help))


class Opener:
    """Opens windows in terminals of their own."""

    def __init__(self, windows, setting):
        self.windows = windows
        self.setting = setting

    def __call__(self, place, *words, rows=26, columns=80, command=FRONT_END, setting=None):
        called = AROUND.format(shlex.join([*command, *words]))
        return Front(self.windows.window(place.folder, called, rows, columns, {"COLORTERM": "truecolor", **self.setting, **(setting or {})}))


class Front:
    """A terminal in which the front end is called."""

    def __init__(self, terminal):
        self.terminal = terminal
        self.type, self.shows, self.rows, self.cursor = terminal.type, terminal.shows, terminal.rows, terminal.cursor

    def leave(self):
        """Leaves insert mode or a prompt: what is typed at once behind an escape would be a key with alt."""
        self.type(ESC)
        return self.shows(" normal ")

    def process(self):
        """The number of the front end's process."""
        return children(int(self.terminal.value("pane_pid")))[0]

    def ended(self):
        """The status, what was told of a fault, and whether the terminal is as it was found."""
        if not self.shows("status "):
            return "timeout"
        self.terminal.awaits(lambda: len(self.rows_told()) > 3)
        _, before, *told, status, after = self.rows_told()
        self.terminal.paste("pasted")
        is_clean = before == after and self.shows("pasted") and not self.terminal.value("alternate_on") == "1"
        return status.removeprefix("status "), "".join(told), is_clean and self.terminal.value("cursor_flag") == "1" and not self.shows_brackets()

    def rows_told(self):
        # those that a small terminal moved out of sight too; a terminal that was resized may have what was drawn in front of them
        rows = [row.strip() for row in self.rows("-J", "-S", "-") if row.strip()]
        return rows[rows.index("before"):] if "before" in rows else []

    def shows_brackets(self):
        """Whether pastes are still told to whoever reads this terminal."""
        return any("200~" in row for row in self.rows())

    def faces(self, first, end):
        """The texts of some rows with their faces."""
        return told(self.rows("-e", "-N"), first, end)

    def lines(self, count=None):
        """What stands in its rows."""
        return [row.rstrip() for row in self.rows()][:count]


def children(process):
    """The processes that a process started and that haven't ended."""
    return [int(number) for number in pathlib.Path(f"/proc/{process}/task/{process}/children").read_text().split()]


def an_editor(place, report, opened):
    """An editor in one command, in a folder without the file."""
    front = opened(place, "new.txt")
    report.check("terminal: it shows the new file", True, front.shows("new.txt 1:1 normal 1/1 - client0"))
    front.type("ihello")
    report.check("terminal: it is typed into", True, front.shows("new.txt 1:6 insert 1/1 - client0"))
    report.check("terminal: and shows that", (["hello", "~"], (0, 5)), (front.lines(2), front.cursor()))
    report.check("terminal: it leaves insert mode", True, front.leave())
    front.type(":w\r")
    report.check("terminal: it writes", True, front.terminal.awaits(lambda: place.files().get("new.txt") == b"hello\n"))
    front.type(":q\r")
    report.check("terminal: it quits", ("0", "", True), front.ended())
    report.check("terminal: and leaves nothing else", ["new.txt", "notes.txt"], place.names())


def the_builder(place, report, opened):
    """The command that builds what isn't built calls it with the same words."""
    front = opened(place, "notes.txt", command=[str(EXAMPLES / "edit")])
    report.check("terminal: examples/edit shows the file", True, front.shows("notes.txt 1:1 normal 1/1 - client0"))
    front.type("ioat")
    front.leave()
    front.type(":wq\r")
    report.check("terminal: examples/edit ends", ("0", "", True), front.ended())
    report.check("terminal: examples/edit wrote", {"notes.txt": b"oatmilk\nbread\n"}, place.files())


def two_windows(place, report, opened):
    """Two windows that begin a session at once: one of them starts the server, and what is typed in one is seen in the other."""
    fronts = [opened(place, "-s", "work", "notes.txt") for _ in range(2)]
    for number, front in enumerate(fronts):
        report.check(f"terminal: window {number} shows the file", True, front.shows("notes.txt 1:1 normal 1/1 - client"))
    fronts[0].type("ioat")
    report.check("terminal: what one types the other shows", (True, True), (fronts[1].shows("oatmilk"), fronts[0].leave()))
    fronts[1].type("geoeggs")
    report.check("terminal: and so the other way", (True, True), (fronts[0].shows("eggs"), fronts[1].leave()))
    report.check("terminal: each has its own cursor", (True, True), (fronts[0].shows(" 1:4 normal "), fronts[1].shows(" 3:5 normal ")))
    fronts[0].type(":ec")
    has_prompt = fronts[0].shows(" prompt ")
    status_lines = [front.lines()[24] for front in fronts]
    report.check("terminal: and its own prompt", (True, [":ec", ""], (24, 3)), (has_prompt, status_lines, fronts[0].cursor()))
    fronts[0].leave()
    fronts[0].type(":q\r")
    report.check("terminal: one window quits", ("0", "", True), fronts[0].ended())
    fronts[1].type(":wq\r")
    report.check("terminal: the other window quits", ("0", "", True), fronts[1].ended())
    report.check("terminal: it has written", b"oatmilk\nbread\neggs\n", place.files().get("notes.txt"))
    report.check("terminal: the server ends with the last window", True, fronts[1].terminal.awaits(lambda: place.names() == ["notes.txt"]))


def keys(place, report, opened):
    """Keys with modifiers do what they are named for."""
    front = opened(place, "keys.txt")
    front.shows("keys.txt 1:1 normal")
    front.type("iab <c> é")
    report.check("terminal: the keys of a text", (True, True), (front.shows("ab <c> é"), front.leave()))
    for pressed, shown in (
            ("Left", "1:8"), ("M-h", "1:1"), ("S-Right", "1:2"), ("End", "1:8"), ("Home", "1:1"), ("M-l", "1:8"), ("M-;", "1:1"), ("M-:", "1:8"),
            ("%", "1:9")):
        front.terminal.press(pressed)
        report.check(f"terminal: the key {pressed}", True, front.shows(f"keys.txt {shown} normal"))
    for pressed, shown in (("C-k", ""), ("C-j", "ab <c> é")):
        front.terminal.press(pressed)
        report.check(f"terminal: the key {pressed}", True, front.terminal.awaits(lambda: front.lines(1) == [shown]))
    front.type("ggi\t\x7fx\r")
    report.check("terminal: tab, backspace and return", True, front.shows("keys.txt 2:1 insert"))
    front.type("\x1c")
    front.ended()


def real_faces(place, report, opened):
    """The faces of selections, cursors, prompts and refusals."""
    front = opened(place, "notes.txt")
    front.shows("notes.txt 1:1")
    front.type("%s")
    front.shows("select:")
    front.type("[a-z]{4}\r")
    front.shows(" 2/2 ")
    wanted = [("mil", "black,blue"), ("k", "black,white"), ("bre", "white,blue"), ("a", "black,white"), ("d", "default"), ("~", "blue")]
    report.check("terminal: the faces of selections", wanted, front.faces(0, 3))
    front.type(":no")
    front.shows(":no")
    wanted = [(":", "yellow"), ("no", "cyan"), (" ", "black,cyan"), ("notes.txt 2:4 prompt 2/2 - client0", "cyan")]
    report.check("terminal: the faces of a prompt", wanted, front.faces(24, 26))
    front.type("\r")
    front.shows("no such command")
    report.check("terminal: the face of a refusal", [("no such command: no", "black,red")], front.faces(24, 25))
    front.type("\x1c")
    front.ended()


class Pretended:
    """A server that draws what it is told to, and plays nothing."""

    def __init__(self, place, session):
        self.door = socket.socket(socket.AF_UNIX)
        self.door.bind(str(place.folder / f"{session}.kak"))
        self.door.listen()
        self.door.settimeout(SECONDS)
        self.came = b""

    def draw(self, given):
        self.client, _ = self.door.accept()
        self.client.sendall(given)

    def asked(self, count):
        """The next lines that the client sends, or those up to its end: the method and the parameters of each."""
        self.client.settimeout(SECONDS)
        while self.came.count(b"\n") < count and (more := self.client.recv(1 << 16)):
            self.came += more
        *lines, self.came = self.came.split(b"\n", count)
        return [(line["method"], *line["params"]) for line in map(json.loads, lines)]

    def close(self):
        self.client.close()
        self.door.close()


def all_faces(place, report, opened):
    """Attributes and colours that a server may send, in a terminal with all colours and in one with 256."""
    attributes = ["bold", "dim", "italic", "underline", "blink", "reverse", "strikethrough", "curly_underline", "double_underline", "final_fg"]
    faces = [{**DEFAULT, "attributes": [name]} for name in attributes] + [
        face("#ff8000", "bright-blue"), face("rgb:102030", "rgba:0a141eff"), {**face("red"), "underline": "#ff0000", "attributes": ["curly_underline", "bold"]}]
    line = [atom(f"{number} ", of) for number, of in enumerate(faces)]
    for colours, wanted in (("truecolor", ["#ff8000,bright-blue", "#102030,#0a141e", "red,default,#ff0000+bold+curly_underline"]),
                            ("", ["colour208,bright-blue", "colour234,colour233", "red,default,colour196+bold+curly_underline"])):
        server = Pretended(place, "p" + colours)
        front = opened(place, "-s", "p" + colours, setting={"COLORTERM": colours})
        server.draw(opening(drawing([line, [atom("x", CURSOR)]], "f 1:1 normal 1/1 - client0", (1, 0))))
        front.shows("11 12")
        of_attributes = [f"default+{name}" for name in attributes[:-1]] + ["default"]
        report.check(f"terminal: all faces with {colours}", of_attributes + wanted, [of for _, of in front.faces(0, 1)])
        server.close()
        report.check("terminal: a server that hangs up", ("0", "", True), front.ended())


def a_box(place, report, opened):
    """A box with a title, at the right end of the last rows of the text, in the window that asked for it alone; it goes with the next key."""
    asking, other = (opened(place, "-s", "work", "notes.txt") for _ in range(2))
    for front in (asking, other):
        report.check("terminal: a window for a box", True, front.shows("notes.txt 1:1 normal 1/1 - client"))
    asking.type(":info -title help milk\r")
    report.check("terminal: a box is shown", True, asking.shows("╭─help─╮"))
    box = ["╭─help─╮", "│ milk │", "╰──────╯"]
    report.check("terminal: the box is at the end of the last rows", [f"{'~':72}{row}" for row in box], asking.lines()[21:24])
    report.check("terminal: the other window has no box", ["~"] * 3, other.lines()[21:24])
    asking.type("l")
    report.check("terminal: a key after a box", True, asking.shows("notes.txt 1:2 normal 1/1 - client"))
    report.check("terminal: the box has gone", ["~"] * 3, asking.lines()[21:24])
    for front in (asking, other):
        front.type(":q\r")
        report.check("terminal: a window that had a box beside it quits", ("0", "", True), front.ended())


def all_requests(place, report, opened):
    """A server that plays all methods is asked for a window of the terminal's size, and told what the mouse does."""
    server = Pretended(place, "all")
    front = opened(place, "-s", "all", rows=10, columns=40)
    server.draw(opening(drawing([[atom("text\n", DEFAULT)]], "f 1:1 normal 1/1 - client0", (0, 0))))
    front.shows("text")
    report.check("terminal: the size is asked for", [("resize", 8, 40)], server.asked(1))
    front.type("a\x1b[<0;3;2M\x1b[<0;3;2m\x1b[<65;1;1Mb")
    wanted = [("keys", "a"), ("mouse_press", "left", 1, 2), ("mouse_release", "left", 1, 2), ("scroll", 3, 0, 0), ("keys", "b")]
    report.check("terminal: the mouse is told", wanted, server.asked(5))
    report.check("terminal: the terminal tells of the mouse", ("1", "1"), (front.terminal.value("mouse_button_flag"), front.terminal.value("mouse_sgr_flag")))
    front.terminal.resize(20, 60)
    report.check("terminal: the new size is asked for", [("resize", 18, 60)], server.asked(1))
    server.client.sendall(METHOD)
    report.check("terminal: not after a refusal", True, front.terminal.awaits(lambda: front.terminal.value("mouse_button_flag") == "0"))
    front.type("\x1b[<0;3;2Mc")
    report.check("terminal: but for keys", [("keys", "c")], server.asked(1))
    server.close()
    report.check("terminal: after all requests", ("0", "", True), front.ended())


def the_mouse(place, report, opened):
    """What is pointed at is selected, and the wheel scrolls."""
    place.folder.joinpath("long.txt").write_text("".join(f"line {number}\n" for number in range(1, 41)))
    front = opened(place, "long.txt", rows=12, columns=40)
    front.shows("long.txt 1:1 normal")
    cursor = lambda line, column: front.shows(f"long.txt {line}:{column} normal 1/1 - client0")
    front.type("\x1b[<0;3;2M")
    report.check("terminal: a press selects", (True, (1, 2)), (cursor(2, 3), front.cursor()))
    front.type("\x1b[<32;6;4M")
    report.check("terminal: a drag extends", (True, (3, 5)), (cursor(4, 6), front.cursor()))
    front.type("\x1b[<0;1;3m")
    report.check("terminal: a release extends", True, cursor(3, 1))
    front.type("\x1b[<32;6;4M\x1b[<2;2;1M")
    report.check("terminal: the right button extends", True, cursor(1, 2))
    front.type(":echo %val{selection}\r")
    report.check("terminal: from where it was pressed", True, front.shows("ine 1"))
    front.type("\x1b[<0;30;1M")
    report.check("terminal: behind a line is its newline", True, cursor(1, 7))
    front.type("\x1b[<65;1;1M")
    report.check("terminal: the wheel scrolls", (True, ["line 4", "line 5"]), (cursor(4, 7), front.lines(2)))
    front.type("\x1b[<64;1;1M")
    report.check("terminal: and back", (True, ["line 1", "line 2"]), (front.shows("line 1"), front.lines(2)))
    front.type("i\x1b[<0;3;9M")
    report.check("terminal: not in insert mode", True, front.shows("long.txt 4:7 insert"))
    front.leave()
    front.type(":q\r")
    report.check("terminal: after the mouse", ("0", "", True), front.ended())


def two_mice(place, report, opened):
    """Each window of a session is pointed and scrolled by itself, and a drag in one is none in the other."""
    place.folder.joinpath("long.txt").write_text("".join(f"line {number}\n" for number in range(1, 41)))
    fronts = [opened(place, "-s", "work", "long.txt", rows=12, columns=40) for _ in range(2)]
    for number, front in enumerate(fronts):
        report.check(f"terminal: window {number} shows the long file", True, front.shows("long.txt 1:1 normal 1/1 - client"))
    fronts[0].type("\x1b[<0;3;2M")
    report.check("terminal: a press in one window", True, fronts[0].shows("long.txt 2:3 normal"))
    fronts[0].type("\x1b[<65;1;1M")
    report.check("terminal: one window is scrolled", (True, ["line 4", "line 5"]), (fronts[0].shows("long.txt 4:3 normal"), fronts[0].lines(2)))
    fronts[1].type("\x1b[<32;6;4M")
    fronts[1].type("l")
    report.check("terminal: the other one isn't", (True, ["line 1", "line 2"]), (fronts[1].shows("long.txt 1:2 normal"), fronts[1].lines(2)))
    for number, front in enumerate(fronts):
        front.type(":q\r")
        report.check(f"terminal: window {number} quits after the mouse", ("0", "", True), front.ended())
    report.check("terminal: the server of the mice ends", True, fronts[1].terminal.awaits(lambda: "work.kak" not in place.names()))


def sizes(place, report, opened):
    """Terminals of other sizes than 24 rows and 80 columns, and that change: the server's window has the terminal's size, and moves by as little as it must."""
    place.folder.joinpath("long.txt").write_text("".join(f"line {number} {'x' * 60}\n" for number in range(1, 31)))
    front = opened(place, "long.txt", rows=8, columns=40)
    lines = [f"line {number} {'x' * 60}" for number in range(1, 31)]
    cut = lambda first, last, left, columns: [line[left:left + columns] for line in lines[first - 1:last]]
    front.shows("long.txt 1:1 normal")
    report.check("terminal: a small one", [*cut(1, 6, 0, 40), "", "long.txt 1:1 normal 1/1 - client0"], front.lines())
    front.type("10g")
    front.shows("long.txt 10:1 normal")
    report.check("terminal: it follows the cursor", (cut(5, 10, 0, 40), (5, 0)), (front.lines(6), front.cursor()))
    front.type("\x1bl")
    front.shows("long.txt 10:68 normal")
    report.check("terminal: also to the right", (cut(5, 10, 28, 40), (5, 39)), (front.lines(6), front.cursor()))
    front.terminal.resize(12, 100)
    grown = [*cut(5, 14, 28, 100), "", "long.txt 10:68 normal 1/1 - client0"]
    report.check("terminal: it grows", True, front.terminal.awaits(lambda: front.lines() == grown))
    front.terminal.resize(30, 100)
    larger = [*cut(5, 30, 28, 100), "~", "~", "", "long.txt 10:68 normal 1/1 - client0"]
    report.check("terminal: larger than the text", True, front.terminal.awaits(lambda: front.lines() == larger))
    front.terminal.resize(3, 20)
    report.check("terminal: as small as can be", True, front.terminal.awaits(lambda: front.lines() == [lines[9][48:], "", "…ormal 1/1 - client0"]))
    front.terminal.resize(26, 80)
    front.type(":q\r")
    report.check("terminal: after all these sizes", ("0", "", True), front.ended())


def wide_characters(place, report, opened):
    """Characters of two cells, and combining ones."""
    front = opened(place, "wide.txt", columns=40)
    front.shows("wide.txt 1:1 normal")
    front.type("i漢字e\u0301x")
    front.shows("wide.txt 1:6 insert")
    front.leave()
    report.check("terminal: wide characters", ("漢字e\u0301x", (0, 6)), (front.lines(1)[0], front.cursor()))
    front.type("2h")
    front.shows("wide.txt 1:4 normal")
    front.type("h")
    front.shows("wide.txt 1:3 normal")
    report.check("terminal: the cursor behind them", (0, 4), front.cursor())
    front.type("h")
    front.shows("wide.txt 1:2 normal")
    report.check("terminal: the cursor on them", (0, 2), front.cursor())
    front.type("d")
    report.check("terminal: one is gone", True, front.shows("漢e\u0301x"))
    front.type("\x1c")
    front.ended()


def pastes(place, report, opened):
    """A text that is pasted is put where it is, in each mode."""
    front = opened(place, "paste.txt")
    front.shows("paste.txt 1:1 normal")
    front.terminal.paste("one :d\n\ttwo <x>\n")
    report.check("terminal: a paste in normal mode", True, front.shows("paste.txt 3:1 normal"))
    front.type("i")
    front.shows("insert")
    front.terminal.paste("three\nfour")
    report.check("terminal: a paste in insert mode", True, front.shows("paste.txt 4:5 insert"))
    report.check("terminal: what was pasted", ["one :d", "        two <x>", "three", "four"], front.lines(4))
    front.leave()
    front.type(":echo ")
    front.shows(":echo")
    front.terminal.paste("five\nsix")
    report.check("terminal: a paste in a prompt", True, front.shows(":echo five six"))
    front.type("\r")
    report.check("terminal: and it is what it says", True, front.terminal.awaits(lambda: front.lines()[24] == "five six"))
    front.terminal.paste("x" * 20000)
    report.check("terminal: a long paste", True, front.shows("paste.txt 4:20005 normal"))
    front.type(":q!\r")
    report.check("terminal: after pastes", ("0", "", True), front.ended())


def killed_server(place, report, opened):
    """A server that is killed is told, and the terminal is left clean."""
    server = place.serve(session="gone")
    front = opened(place, "-s", "gone")
    report.check("terminal: a server that somebody else started", True, front.shows("*scratch* 1:1 normal 1/1 - client0"))
    server.stop()
    report.check("terminal: a server that was killed", ("1", "terminal.py: gone.kak: the server was killed: what wasn't written is lost", True), front.ended())
    again = opened(place, "-s", "gone")
    report.check("terminal: and the next one begins anew", True, again.shows("*scratch* 1:1 normal 1/1 - client0"))
    again.type(":q\r")
    report.check("terminal: which ends", ("0", "", True), again.ended())


def killed_editor(place, report, opened):
    front = opened(place, "notes.txt")
    front.shows("notes.txt 1:1")
    os.kill(children(front.process())[0], signal.SIGKILL)
    report.check("terminal: an editor that was killed", ("1", "terminal.py: kak was killed by signal 9: what wasn't written is lost", True), front.ended())


def ways_out(place, report, opened):
    """It hangs up, and it is ended from outside; then its server ends too."""
    front = opened(place, "notes.txt")
    front.shows("notes.txt 1:1")
    server = children(front.process())[0]
    front.type("\x1c")
    report.check("terminal: it hangs up", ("0", "", True), front.ended())
    report.check("terminal: and its server ends", False, os.path.exists(f"/proc/{server}"))
    for number in (signal.SIGTERM, signal.SIGINT, signal.SIGHUP):
        front = opened(place, "notes.txt")
        front.shows("notes.txt 1:1")
        os.kill(front.process(), number)
        report.check(f"terminal: signal {number}", ("0", "", True), front.ended())


def faults(place, report, opened):
    """What can't be started is told before the terminal is taken."""
    for words, setting, told in (
            (["a"], {"KAK": "/none/kak"}, "terminal.py: /none/kak: No such file or directory"),
            (["-s", "a"], {"KAKD": "/none/kakd"}, "terminal.py: /none/kakd: No such file or directory"),
            (["a"], {"KAK": "/bin/false"}, "terminal.py: kak ended with status 1"),
            (["-s", "a"], {"KAKD": "/bin/false"}, "terminal.py: kakd ended with status 1")):
        report.check(f"terminal: {words} with {setting}", ("1", told, True), opened(place, *words, setting=setting).ended())
    server = Pretended(place, "full")
    front = opened(place, "-s", "full", columns=120)
    server.draw(b"")
    server.close()
    told = "terminal.py: the server hung up before it drew anything; it may have as many clients as it serves"
    report.check("terminal: a server that is full", ("1", told, True), front.ended())
    server = Pretended(place, "other")
    front = opened(place, "-s", "other", columns=120)
    server.draw(b"hello\n")
    report.check("terminal: what is no server", ("1", "terminal.py: the server sent a line that is no drawing: b'hello'", True), front.ended())
    server.close()
