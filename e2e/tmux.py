"""Terminals that a program can look at: windows of a `tmux` of their own."""
import os
import pathlib
import shutil
import subprocess
import tempfile
import time

# how long something may take to be shown
SECONDS = 30
IS_THERE = shutil.which("tmux") is not None
SETTINGS = ("status off", "remain-on-exit on", "escape-time 0", "default-terminal tmux-256color", "exit-empty off")


class Tmux:
    """A server of `tmux` that nobody else uses, with its windows; it is gone after `with`."""

    def __init__(self):
        self.held = tempfile.TemporaryDirectory()
        self.settings = pathlib.Path(self.held.name) / "settings"
        self.settings.write_text("".join(f"set -g {setting}\n" for setting in SETTINGS))
        self.count = 0

    def run(self, *words):
        done = subprocess.run(
            ["tmux", "-u", "-S", self.settings.with_name("socket"), "-f", self.settings, *words], capture_output=True, timeout=SECONDS,
            env={**os.environ, "LC_ALL": "C.UTF-8", "TERM": "xterm-256color"})
        return done.stdout.decode()

    def window(self, folder, command, rows=26, columns=80, setting=None):
        """A new terminal of that size, in which a command of the shell runs."""
        self.count += 1
        name = f"w{self.count}"
        values = [word for pair in (setting or {}).items() for word in ("-e", "=".join(pair))]
        self.run("new-session", "-d", "-s", name, "-x", str(columns), "-y", str(rows), "-c", str(folder), *values, command)
        return Terminal(self, name)

    def __enter__(self):
        return self

    def __exit__(self, *_):
        self.run("kill-server")
        self.held.cleanup()


class Terminal:
    """One of these terminals."""

    def __init__(self, tmux, name):
        self.tmux = tmux
        self.name = name

    def type(self, text):
        """Types characters, each as it is."""
        self.tmux.run("send-keys", "-t", self.name, "-H", *(f"{byte:x}" for byte in text.encode()))

    def press(self, *keys):
        """Presses keys by the names that tmux has for them."""
        self.tmux.run("send-keys", "-t", self.name, *(key.replace(";", "\\;") for key in keys))

    def paste(self, text):
        pasted = self.tmux.settings.with_name("pasted")
        pasted.write_text(text)
        self.tmux.run("load-buffer", "-b", "pasted", str(pasted))
        self.tmux.run("paste-buffer", "-p", "-b", "pasted", "-t", self.name)

    def resize(self, rows, columns):
        self.tmux.run("resize-window", "-t", self.name, "-x", str(columns), "-y", str(rows))

    def rows(self, *words):
        """What stands in its rows; with `-e` in its faces."""
        return self.tmux.run("capture-pane", "-p", *words, "-t", self.name).split("\n")[:-1]

    def value(self, name):
        """One of its values, as tmux names them."""
        return self.tmux.run("display-message", "-p", "-t", self.name, f"#{{{name}}}").strip()

    def cursor(self):
        """The row and column of its cursor."""
        return int(self.value("cursor_y")), int(self.value("cursor_x"))

    def awaits(self, holds):
        """Waits until something holds; whether it did in time."""
        end = time.monotonic() + SECONDS
        while not holds():
            if time.monotonic() > end:
                return False
            time.sleep(0.02)
        return True

    def shows(self, text):
        """Whether this stands in one of its rows, now or soon."""
        return self.awaits(lambda: any(text in row for row in self.rows()))

    def has_ended(self):
        """Whether its command ended, now or soon."""
        return self.awaits(lambda: self.value("pane_dead") == "1")
