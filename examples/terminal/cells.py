"""Rows of cells. A cell is what stands in it and the style in which it is written; the right half of a wide character is an empty text."""
from .widths import width

TAB = 8
REPLACEMENT = "\ufffd"


def put(cells, contents, style):
    """Adds the characters of a text to a row; a newline is a cell."""
    text = contents.replace("\n", " ")
    if text.isascii() and text.isprintable() or all(width(character) == 1 for character in set(text)):
        cells += [(character, style) for character in text]
    else:
        for character in text:
            put_character(cells, character, style)


def put_character(cells, character, style):
    """Adds a character that may take more cells than one, or none: then it goes with the one before it. A control character isn't shown as it is."""
    taken = width(character)
    if character == "\t":
        cells += [(" ", style)] * (TAB - len(cells) % TAB)
    elif taken is None:
        cells.append((REPLACEMENT, style))
    elif taken:
        cells += [(character, style)] + [("", style)] * (taken - 1)
    else:
        place = next((place for place in range(len(cells) - 1, -1, -1) if cells[place][0]), None)
        if place is not None:
            cells[place] = (cells[place][0] + character, cells[place][1])


def shown(cells, first, count, style):
    """So many cells of a row from one on, in a row of that length: wide characters that are cut are spaces, and the rest is spaces of that style."""
    part = list(cells[first:first + count])
    if part and not part[0][0]:
        part[0] = (" ", part[0][1])
    if len(part) == count and first + count < len(cells) and not cells[first + count][0]:
        part[-1] = (" ", part[-1][1])
    return part + [(" ", style)] * (count - len(part))


def text_of(cells):
    return "".join(text for text, _ in cells)
