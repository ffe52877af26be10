"""A terminal in memory, that understands what the front end in `examples` writes."""
import re

BLANK = (" ", "\x1b[0m")
SEQUENCE = re.compile(r"\x1b\[([?<>]?)([\d;:]*)( ?)([A-Za-z])")


class Emulated:
    """Rows of cells, each a text and the sequences that set its style; the right half of a wide character is an empty text.

    Its characters are as wide as it is told, so that it may see them otherwise than the program that writes.
    """

    def __init__(self, rows, columns, width):
        self.cells = [[("?", "")] * columns for _ in range(rows)]
        self.width = width
        self.row = self.column = 0
        self.style = BLANK[1]
        self.shape = None
        self.shows_cursor = True
        self.written = 0

    def take(self, text):
        while text:
            if found := SEQUENCE.match(text):
                self.sequence(*found.groups(), found[0])
                text = text[found.end():]
            else:
                self.put(text[0])
                text = text[1:]

    def sequence(self, mark, given, space, last, whole):
        if last == "H":
            self.row, self.column = (int(number) - 1 for number in given.split(";"))
        elif last == "m":
            self.style = whole if given.startswith("0") else self.style + whole
        elif last == "K":
            self.cells[self.row][self.column:] = [(" ", self.style)] * (len(self.cells[self.row]) - self.column)
        elif last == "J":
            self.cells = [[(" ", self.style)] * len(row) for row in self.cells]
        elif space and last == "q":
            self.shape = int(given)
        elif mark == "?" and given == "25":
            self.shows_cursor = last == "h"

    def put(self, character):
        self.written += 1
        row, taken = self.cells[self.row], self.width(character)
        if not taken:
            place = self.column - 1
            while not row[place][0]:
                place -= 1
            row[place] = (row[place][0] + character, row[place][1])
            return
        for place in range(self.column, min(self.column + taken, len(row))):
            self.clear(row, place)
            row[place] = (character if place == self.column else "", self.style)
        self.column += taken

    @staticmethod
    def clear(row, place):
        """What is left of a wide character, half of which is written over, is a space."""
        if not row[place][0] and place:
            row[place - 1] = (" ", row[place - 1][1])
        if place + 1 < len(row) and not row[place + 1][0]:
            row[place + 1] = (" ", row[place + 1][1])

    def cursor(self):
        return (self.row, self.column) if self.shows_cursor else None
