"""The pictures of docs/pictures are what the front end in `examples` shows in terminals."""
import pathlib
import shlex
import sys

import svg
import tmux
from connections import Place

TOP = pathlib.Path(__file__).resolve().parent.parent
PICTURES = TOP / "docs/pictures"
FRONT_END = shlex.join([sys.executable, str(TOP / "examples/terminal.py")])
NOTES = b"milk\nbread\neggs\n"
CODE = b"""def greet(name, words):
    for word in words:
        print(word, name)

greet("world", ["hello", "good morning"])
"""
ESC = "\x1b"


class Session:
    """Terminals beside each other in one folder, in which things are typed by turns."""

    def __init__(self, program, server, windows, place, size):
        self.setting = {"KAK": str(program), "KAKD": str(server), "COLORTERM": "truecolor"}
        self.windows, self.place, self.size = windows, place, size
        self.shown = []

    def open(self, *words):
        """A terminal on these words, which are its title."""
        terminal = self.windows.window(self.place.folder, f"{FRONT_END} {shlex.join(words)}", *self.size, self.setting)
        self.shown.append((terminal, "examples/terminal.py " + shlex.join(words)))
        return terminal

    def picture(self):
        """What all of them show."""
        return svg.picture([(terminal.rows("-e", "-N"), self.size[1], title) for terminal, title in self.shown])

    def close(self):
        for terminal, _ in self.shown:
            terminal.type("\x1c")
            terminal.has_ended()


def typed(terminal, *turns):
    """Types texts, each when what the one before leads to is shown."""
    for text, shown in turns:
        terminal.type(text)
        if not terminal.shows(shown):
            raise OSError(f"a terminal doesn't show {shown!r}")


def two_windows(session):
    """Two windows on one session: in the first three cursors typed before three lines, and in the second a command is typed."""
    first = session.open("-s", "work", "notes.txt")
    typed(first, ("", "notes.txt 1:1 normal 1/1 - client0"))
    second = session.open("-s", "work", "notes.txt")
    typed(second, ("", "notes.txt 1:1 normal 1/1 - client1"))
    typed(first, ("%" + ESC + "s", " 3/3 "), ("I- ", "3:3 insert 3/3"))
    typed(second, ("", "- eggs"), (":w", ":w"))


def many_selections(session):
    """All places of a word in a program are selected."""
    window = session.open("greet.py")
    typed(window, ("", "greet.py 1:1 normal"), ("%s", "select:"), ("word\\b|name\r", " 4/4 "))


# the pictures by their names: the files that are there, the rows and columns of a terminal, and what is done
ALL = {
    "two_windows": ({"notes.txt": NOTES}, (8, 44), two_windows),
    "many_selections": ({"greet.py": CODE}, (9, 60), many_selections),
}


def drawn(name, program, server):
    """A picture, as the text of its file."""
    files, size, steps = ALL[name]
    with tmux.Tmux() as windows, Place(server, files) as place:
        session = Session(program, server, windows, place, size)
        try:
            steps(session)
            return session.picture()
        finally:
            session.close()


def run(program, server, report):
    stored = sorted(path.stem for path in PICTURES.iterdir())
    report.check("docs/pictures has these pictures, which e2e/pictures draws", sorted(ALL), stored)
    if not tmux.IS_THERE:
        report.not_run("docs/pictures", "no tmux")
        return
    for name in ALL:
        try:
            stored_bytes = (PICTURES / f"{name}.svg").read_bytes()
            report.check_output(f"docs/pictures/{name}.svg: e2e/pictures draws it anew", stored_bytes, drawn(name, program, server).encode())
        except OSError as fault:
            report.fail(f"docs/pictures/{name}.svg", "expected a session to its end", f"came     {fault!r}")
