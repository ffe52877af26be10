"""The rows of a terminal with their styles, as tmux tells them."""
import itertools
import re
import unicodedata
from typing import NamedTuple

COLOURS = ("black", "red", "green", "yellow", "blue", "magenta", "cyan", "white")
ATTRIBUTES = {
    "1": "bold", "2": "dim", "3": "italic", "4": "underline", "5": "blink", "7": "reverse", "9": "strikethrough", "21": "double_underline",
    "4:2": "double_underline", "4:3": "curly_underline",
}
# which of the colours a number is of, by the numbers of tens
PARTS = {3: ("fg", 0), 4: ("bg", 0), 9: ("fg", 8), 10: ("bg", 8)}
LONG = {"38": "fg", "48": "bg", "58": "underline"}
SEQUENCE = re.compile(r"\x1b\[([\d;:]*)m")


def colour(number):
    """The name of one of a terminal's 256 colours."""
    return COLOURS[number] if number < 8 else f"bright-{COLOURS[number - 8]}" if number < 16 else f"colour{number}"


class Style(NamedTuple):
    """Colours by name, as `colourN` or as `#rrggbb`, and names of attributes."""
    fg: str = "default"
    bg: str = "default"
    underline: str = "default"
    attributes: tuple = ()

    def after(self, parameters):
        """The style after a sequence with these parameters."""
        style, given = self, parameters.split(";")
        while given:
            word = given.pop(0)
            if word in LONG:
                kind = given.pop(0)
                taken, given = (given[:1], given[1:]) if kind == "5" else (given[:3], given[3:])
                value = colour(int(taken[0])) if kind == "5" else "#" + bytes(map(int, taken)).hex()
                style = style._replace(**{LONG[word]: value})
            else:
                style = style.after_word(word)
        return style

    def after_word(self, word):
        if word in ("", "0"):
            return Style()
        if word in ATTRIBUTES:
            return self._replace(attributes=tuple(sorted({*self.attributes, ATTRIBUTES[word]})))
        part, brighter = PARTS[int(word) // 10]
        return self._replace(**{part: colour(int(word) % 10 + brighter) if int(word) % 10 < 8 else "default"})

    def __str__(self):
        """As the text of a face is written."""
        colours = [self.fg, self.bg, self.underline]
        while len(colours) > 1 and colours[-1] == "default":
            colours.pop()
        return ",".join(colours) + "".join(f"+{name}" for name in self.attributes)


def cells(text):
    """How many cells the characters of a text take."""
    return sum(0 if unicodedata.combining(character) else 2 if unicodedata.east_asian_width(character) in "WF" else 1 for character in text)


def runs_of(rows):
    """The runs of one style of rows, each with its row, its column and its style. A row begins in the style in which the one above ended."""
    style = Style()
    for number, row in enumerate(rows):
        column, pieces = 0, []
        for place, piece in enumerate(SEQUENCE.split(row)):
            if place % 2:
                style = style.after(piece)
            elif piece:
                pieces.append((style, piece))
        for of, group in itertools.groupby(pieces, key=lambda pair: pair[0]):
            text = "".join(piece for _, piece in group)
            yield number, column, text, of
            column += cells(text)


def told(rows, first, end):
    """The runs of some of these rows as texts with their faces, without blanks at the ends of rows."""
    runs = [run for run in runs_of(rows) if first <= run[0] < end]
    found = []
    for number in range(first, end):
        row = [(text, style) for at, _, text, style in runs if at == number]
        while row and row[-1][1].bg == "default" and not row[-1][0].strip():
            row.pop()
        if row and row[-1][1].bg == "default":
            row[-1] = row[-1][0].rstrip(), row[-1][1]
        found += [(text, str(style)) for text, style in row]
    return found
