"""What stands in a terminal, and what is written to change it: no more than what is different."""
import itertools
import operator
from typing import NamedTuple

from .faces import RESET
from .widths import width

BLOCK, BAR = 2, 6
BLANK = (" ", RESET)
TEXT, STYLE = operator.itemgetter(0), operator.itemgetter(1)
# from here on a terminal may see the width of a character otherwise than we do
SURE = "\u0300"
# a terminal that knows these shows all that is between them at once
BEGIN, END = "\x1b[?2026h\x1b[?25l", "\x1b[?2026l"


class Picture(NamedTuple):
    """What is to stand in a terminal: rows of cells, all of one length, the cursor's row and column if it is seen, and its shape."""
    rows: list
    cursor: tuple
    shape: int = BLOCK


def differs(old, new):
    """The columns from the first cell that is different up to the last one. A wide character is written whole."""
    begin = next(column for column, (one, other) in enumerate(zip(old, new)) if one != other)
    behind = next(count for count, (one, other) in enumerate(zip(reversed(old), reversed(new))) if one != other)
    while begin and not new[begin][0]:
        begin -= 1
    return begin, len(new) - behind


def filled(row):
    """How many cells of a row stand before those at its end that are as a terminal erases them."""
    count = len(row)
    while count and row[count - 1] == BLANK:
        count -= 1
    return count


def at(row, column):
    return f"\x1b[{row + 1};{column + 1}H"


def placed(texts, row, column):
    """What is written for the texts of cells from there on: after one whose width the terminal may see otherwise the next one is put in its place."""
    whole = "".join(texts)
    if whole.isascii():
        yield whole
        return
    for column, text in enumerate(texts, column):
        yield text
        if text and max(text) >= SURE:
            yield at(row, column + width(text[0]))


class Screen:
    """What stands in a terminal of that size: nothing is known of it at first."""

    def __init__(self):
        self.rows = []
        self.cursor = None
        self.shape = None

    def forget(self):
        """Whatever stands in the terminal is written anew."""
        self.__init__()

    def changes(self, picture):
        """What is written so that the terminal shows a picture; nothing where it does."""
        size = len(picture.rows), len(picture.rows[0])
        written = []
        if size != (len(self.rows), len(self.rows[0]) if self.rows else 0):
            written.append(f"{RESET}\x1b[2J")
            self.rows = [[BLANK] * size[1]] * size[0]
        for row, (old, new) in enumerate(zip(self.rows, picture.rows)):
            if old != new:
                self.write_row(row, old, new, written)
        self.rows = picture.rows
        return self.finished(written, picture)

    def write_row(self, row, old, new, written):
        begin, end = differs(old, new)
        end_of_text = filled(new)
        written.append(at(row, begin))
        column = begin
        for style, cells in itertools.groupby(new[begin:min(end, end_of_text)], STYLE):
            texts = list(map(TEXT, cells))
            written += [style, *placed(texts, row, column)]
            column += len(texts)
        if end > end_of_text:
            written.append(f"{at(row, max(begin, end_of_text))}{RESET}\x1b[K")

    def finished(self, written, picture):
        """All that is written, with the cursor at its place."""
        if not written and (self.cursor, self.shape) == (picture.cursor, picture.shape):
            return ""
        text = "".join([BEGIN, *written, RESET]) if written else ""
        if self.shape != picture.shape:
            text += f"\x1b[{picture.shape} q"
        text += at(*picture.cursor) + "\x1b[?25h" if picture.cursor else "\x1b[?25l"
        self.cursor, self.shape = picture.cursor, picture.shape
        return text + (END if written else "")
