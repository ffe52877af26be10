"""What is typed into a terminal: keys as Kakoune names them, pastes, and what the mouse does."""
import codecs
import re
import unicodedata
from typing import NamedTuple

HANG_UP = "<c-\\>"
PASTE_BEGIN, PASTE_END = "\x1b[200~", "\x1b[201~"

# the key that ends a terminal's sequence, by its last character, or by its number before `~` or `u`
LETTERS = {"A": "up", "B": "down", "C": "right", "D": "left", "H": "home", "F": "end", "P": "F1", "Q": "F2", "R": "F3", "S": "F4"}
NUMBERS = {
    1: "home", 3: "del", 4: "end", 5: "pageup", 6: "pagedown", 7: "home", 8: "end", 11: "F1", 12: "F2", 13: "F3", 14: "F4", 15: "F5",
    17: "F6", 18: "F7", 19: "F8", 20: "F9", 21: "F10", 23: "F11", 24: "F12",
}
# those of a keypad, by their numbers before `u`
KEYPAD = {
    57414: "ret", 57417: "left", 57418: "right", 57419: "up", 57420: "down", 57421: "pageup", 57422: "pagedown", 57423: "home",
    57424: "end", 57426: "del",
}
# keys that are control characters, and characters that are written by names
KEYS = {"\r": "ret", "\t": "tab", "\x7f": "backspace", "\b": "backspace", "\x1b": "esc"}
CHARACTERS = {
    " ": "space", "<": "lt", ">": "gt", "+": "plus", "-": "minus", ";": "semicolon", "%": "percent", "'": "quote", '"': "dquote",
}
MODIFIERS = ((4, "c-"), (2, "a-"), (1, "s-"))
BUTTONS = ("left", "middle", "right")
# how many lines a turn of the wheel is
WHEEL = 3

SEQUENCE = re.compile(r"\x1b(?:\[([<?]?)([\d;:]*)([~A-Za-z])|O([A-Za-z]))")
UNFINISHED = re.compile(r"\x1b(?:\[[<?]?[\d;:]*|O)?")


class Paste(NamedTuple):
    """A text that was pasted."""
    text: str


class Mouse(NamedTuple):
    """A request of the mouse, its parameters but for the place, and the place in the terminal, from 0."""
    method: str
    given: tuple
    row: int
    column: int


def written(name, held=0):
    """How a key is written, a character or a name, with these modifiers (shift 1, alt 2, control 4)."""
    modifiers = "".join(word for bit, word in MODIFIERS if held & bit)
    return name if len(name) == 1 and not modifiers else f"<{modifiers}{name}>"


def key_of(character, held=0):
    """The key of one character; nothing for a control character that is none."""
    if character in KEYS:
        return written(KEYS[character], held)
    if character < " ":
        return written("space" if character == "\0" else chr(ord(character) + (96 if character < "\x1b" else 64)), held | 4)
    if unicodedata.category(character) in ("Cc", "Cs"):
        return ""
    return written(CHARACTERS.get(character, character), held & ~1)


def keys_of(text):
    """The keys that type a text: its line ends are `<ret>`, and control characters are left out."""
    lines = text.replace("\r\n", "\n").replace("\r", "\n")
    typed = ("\r" if character == "\n" else character for character in lines)
    return [key_of(character) for character in typed if character in "\r\t" or unicodedata.category(character) != "Cc"]


def coded_key(code, shifted, held):
    """The key of a code before `u`: of a character, or one of a keypad. Shift is in the character, where it has another one for it."""
    if code in KEYPAD:
        return written(KEYPAD[code], held)
    if not code or 0xE000 <= code <= 0xF8FF or code > 0x10FFFF:
        return ""
    character = chr(code)
    if held & 1 and character not in KEYS:
        character = chr(shifted) if shifted else character.upper()
    return key_of(character, held)


def numbers_of(text):
    """The parameters of a sequence, each the list of its parts; one that is missing is 0."""
    return [[int(part or 0) for part in parameter.split(":")] for parameter in text.split(";")]


def sequence_key(parameters, last):
    """The key of a terminal's sequence; nothing where it is none that we know."""
    held = (parameters[1][0] - 1) & 7 if len(parameters) > 1 and parameters[1][0] else 0
    first = parameters[0]
    if last == "Z":
        return "<s-tab>"
    if last == "u":
        return coded_key(first[0], first[1] if len(first) > 1 else 0, held)
    if last == "~" and first[0] == 27 and len(parameters) > 2:
        return coded_key(parameters[2][0], 0, held)
    name = NUMBERS.get(first[0]) if last == "~" else LETTERS.get(last)
    return written(name, held) if name else ""


def mouse_event(parameters, last):
    """What the mouse did; nothing where it is none of what can be asked."""
    if len(parameters) != 3:
        return None
    code, column, row = (parameter[0] for parameter in parameters)
    place = (row - 1, column - 1)
    if code & 64:
        return Mouse("scroll", (WHEEL if code & 1 else -WHEEL,), *place) if code & 3 < 2 else None
    if code & 32:
        return Mouse("mouse_move", (), *place)
    if code & 3 == 3:
        return None
    return Mouse("mouse_press" if last == "M" else "mouse_release", (BUTTONS[code & 3],), *place)


class Keyboard:
    """What was typed and isn't read yet."""

    def __init__(self):
        self.decode = codecs.getincrementaldecoder("utf-8")("replace").decode
        self.typed = ""
        self.pasted = None

    def take(self, given):
        self.typed += self.decode(given)

    def waits(self):
        """Whether the beginning of a key stands there, of which more may come."""
        return bool(self.typed) and self.pasted is None

    def events(self, is_late=False):
        """What was typed, in its order: keys as texts, pastes, and what the mouse did.

        The beginning of a sequence is left for later; if that is late, it is keys of its own.
        """
        found = []
        while self.typed and (event := self.next(is_late)) is not None:
            found += [event] if event else []
        return found

    def next(self, is_late):
        """The next event; an empty text where something is passed over, and nothing where more must come first."""
        if self.pasted is not None:
            return self.next_pasted()
        if self.typed.startswith(PASTE_BEGIN):
            self.cut(len(PASTE_BEGIN))
            self.pasted = []
            return self.next_pasted()
        if found := SEQUENCE.match(self.typed):
            self.cut(found.end())
            return self.of_sequence(*found.groups())
        if not is_late and UNFINISHED.fullmatch(self.typed):
            return None
        if self.typed[0] == "\x1b" and len(self.typed) > 1 and self.typed[1] != "\x1b":
            return key_of(self.cut(2)[1], 2)
        return key_of(self.cut(1))

    def cut(self, count):
        front, self.typed = self.typed[:count], self.typed[count:]
        return front

    def next_pasted(self):
        text, end, rest = self.typed.partition(PASTE_END)
        if not end:
            self.pasted.append(self.cut(max(0, len(text) - len(PASTE_END))))
            return None
        whole, self.pasted, self.typed = "".join([*self.pasted, text]), None, rest
        return Paste(whole)

    def of_sequence(self, mark, text, last, letter):
        if letter:
            return written(LETTERS[letter]) if letter in LETTERS else ""
        if mark == "<":
            return mouse_event(numbers_of(text), last) or ""
        return "" if mark else sequence_key(numbers_of(text), last)
