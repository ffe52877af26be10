"""A window on a server, in a terminal: what is typed goes there, and what comes is shown."""
import json
import os
import select

from .device import KEYBOARD, Device
from .faces import Pen
from .keys import HANG_UP, Keyboard, Mouse, Paste, keys_of
from .requests import ROWS
from .screen import Screen
from .servers import Fault
from .view import Drawing, View

# how long an escape may stand alone until it is the key, in seconds
ESCAPE_WAIT = 0.05


class Window:
    """Keeps what was drawn and what stands in the terminal."""

    def __init__(self, link, device, requests):
        self.link, self.device, self.requests = link, device, requests
        self.keyboard, self.drawing, self.screen = Keyboard(), Drawing(), Screen()
        self.view = View(Pen(os.environ.get("COLORTERM") in ("truecolor", "24bit")))
        self.is_stale = self.has_drawing = False
        self.resize()
        device.set_mouse(requests.plays_mouse())

    def resize(self):
        """Takes the terminal's size, and asks for a window of it where the server plays that."""
        rows, columns = self.device.size()
        self.view.resize(rows, columns)
        self.screen.forget()
        self.is_stale = True
        self.link.send(self.requests.line("resize", self.view.room, self.view.columns))

    def run(self):
        """Goes on until one side ends. Whether it was the server that hung up."""
        while True:
            unsent = [self.link] if self.link.unsent else []
            wait = ESCAPE_WAIT if self.keyboard.waits() else None
            ready, writable, _ = select.select([self.link, KEYBOARD, self.device.signals], unsent, [], wait)
            if writable:
                self.link.send_more()
            if self.device.signals in ready:
                if self.device.has_signal():
                    return False
                self.resize()
            if not self.hear_keyboard(KEYBOARD in ready):
                return False
            if self.link in ready and not self.hear_server():
                return True
            self.show()

    def hear_keyboard(self, is_ready):
        """Sends what was typed. Whether to go on: not where it was to hang up, or the terminal is gone."""
        if is_ready:
            given = self.device.read()
            if not given:
                return False
            self.keyboard.take(given)
        events = self.keyboard.events(is_late=not is_ready)
        if HANG_UP in events:
            return False
        self.send(events)
        return True

    def send(self, events):
        """Keys that stand beside each other go in one line."""
        keys = []
        for event in events:
            if isinstance(event, Mouse):
                self.link.send(self.requests.keys(keys) + self.mouse_line(event))
                keys = []
            else:
                keys += self.pasted(event.text) if isinstance(event, Paste) else [event]
        self.link.send(self.requests.keys(keys))

    def mouse_line(self, event):
        place = self.view.place_in_window(event.row, event.column)
        return self.requests.line(event.method, *event.given, *place) if place else b""

    def pasted(self, text):
        """The keys that put a text where it is pasted: it is no command, also in normal mode, and no end of a prompt."""
        mode = self.drawing.mode_name()
        if mode == "prompt":
            return keys_of(" ".join(text.splitlines()))
        return keys_of(text) if mode == "insert" else ["i", *keys_of(text), "<esc>"]

    def hear_server(self):
        """Takes what the server sent. Whether it is still there."""
        lines = self.link.lines()
        for line in lines or ():
            try:
                self.take(json.loads(line))
            except (ValueError, LookupError, TypeError) as fault:
                raise Fault(f"the server sent a line that is no drawing: {line[:60]!r}") from fault
        return lines is not None

    def take(self, message):
        if "error" in message:
            self.refused(message["error"])
        elif self.drawing.take(message["method"], message["params"]):
            self.has_drawing = self.is_stale = True
            if message["params"][0]:
                self.screen.forget()

    def refused(self, error):
        """A server that plays keys alone isn't asked for anything else again. Any other refusal is shown."""
        if self.requests.refused(error["code"]):
            self.device.set_mouse(self.requests.plays_mouse())
        else:
            self.drawing.fault = error["message"]
            self.is_stale = True

    def show(self):
        """Shows the last drawing that has come whole."""
        if self.is_stale and self.has_drawing:
            window_rows = self.view.room + 1 if "resize" in self.requests.played else ROWS
            self.device.write(self.screen.changes(self.view.picture(self.drawing, window_rows)))
            self.is_stale = False


def converse(link, keys, requests):
    """A window on a server, to which some keys are sent first, until one side ends. Whether the server hung up, and whether it had drawn."""
    with Device() as device:
        window = Window(link, device, requests)
        link.send(requests.keys(keys))
        try:
            return window.run(), window.has_drawing
        except OSError:
            # the terminal is gone
            return False, window.has_drawing
