"""The terminal in which this program runs."""
import os
import signal
import socket
import termios
import tty

from .requests import COLUMNS, ROWS

KEYBOARD, OUTPUT = 0, 1
# a screen of its own, without wrapping; pastes are told; keys are told apart where the terminal can
ENTER = "\x1b[?1049h\x1b[?7l\x1b[?2004h\x1b[>5u"
LEAVE = "\x1b[0m\x1b[<u\x1b[?2004l\x1b[?7h\x1b[0 q\x1b[?25h\x1b[?1049l"
MOUSE_ON, MOUSE_OFF = "\x1b[?1002h\x1b[?1006h", "\x1b[?1006l\x1b[?1002l"
LAST_SIGNALS = (signal.SIGTERM, signal.SIGHUP, signal.SIGINT)


class Device:
    """The terminal, which is this program's own inside of `with`, and as it was before after it, whatever happens."""

    def __init__(self):
        self.before = termios.tcgetattr(KEYBOARD)
        self.has_mouse = False
        # a signal is a byte here, so that it isn't missed while something else is awaited
        self.signals, self.noted = socket.socketpair()
        for end in (self.signals, self.noted):
            end.setblocking(False)

    def __enter__(self):
        signal.set_wakeup_fd(self.noted.fileno())
        for number in (signal.SIGWINCH, *LAST_SIGNALS):
            signal.signal(number, lambda *_: None)
        # what was typed ahead isn't lost
        tty.setraw(KEYBOARD, termios.TCSADRAIN)
        self.write(ENTER)
        return self

    def __exit__(self, *_):
        try:
            self.set_mouse(False)
            self.write(LEAVE)
            termios.tcsetattr(KEYBOARD, termios.TCSADRAIN, self.before)
        except (OSError, termios.error):
            # the terminal itself is gone
            pass

    def set_mouse(self, is_on):
        """Has the terminal tell what the mouse does, or keep that to itself."""
        if is_on != self.has_mouse:
            self.has_mouse = is_on
            self.write(MOUSE_ON if is_on else MOUSE_OFF)

    def size(self):
        """Its rows and columns; those of a window where it doesn't say."""
        size = os.get_terminal_size(OUTPUT)
        return size.lines or ROWS, size.columns or COLUMNS

    def read(self):
        """What was typed; nothing where the terminal is gone."""
        try:
            return os.read(KEYBOARD, 1 << 16)
        except OSError:
            return b""

    def write(self, text):
        given = text.encode()
        while given:
            given = given[os.write(OUTPUT, given):]

    def has_signal(self):
        """Takes the signals that came. Whether one of them says that the program must end."""
        return any(number in LAST_SIGNALS for number in self.signals.recv(1 << 10))
