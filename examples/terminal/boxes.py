"""Boxes over the text: what a server tells beside it, and what it lets choose from."""
from .cells import put, shown
from .faces import face_of, merged

# the most items of a menu that are seen at once
MENU_ROWS = 10


def row_of(atoms, base, pen):
    """A row of cells of a line of atoms, whose faces lie over another one."""
    cells = []
    for atom in atoms:
        put(cells, atom["contents"], pen.style_over(base, atom["face"]))
    return cells


def info_rows(title, content, face, pen, rows, columns):
    """The box of some lines, with a frame that has the title, no larger than so many rows and columns."""
    base = face_of(face)
    style = pen.style(base)
    if rows < 3 or columns < 5:
        return []
    heading = row_of(title, base, pen)
    lines = [row_of(line, base, pen) for line in content][:rows - 2]
    inside = min(max([len(heading), *map(len, lines)]), columns - 4)
    edge = lambda text: [(character, style) for character in text]
    name = shown(heading, 0, min(len(heading), inside), style)
    top = edge("╭─") + name + edge("─" * (inside - len(name)) + "─╮")
    bottom = edge("╰" + "─" * (inside + 2) + "╯")
    return [top, *(edge("│ ") + shown(line, 0, inside, style) + edge(" │") for line in lines), bottom]


def menu_rows(items, chosen, faces, pen, rows, columns):
    """The rows of a menu, of which as many are seen as there is room for, the chosen one among them."""
    chosen_face, face = map(face_of, faces)
    count = min(MENU_ROWS, rows, len(items))
    first = min(max(0, chosen - count + 1), len(items) - count) if 0 <= chosen < len(items) else 0
    seen = range(first, first + count)
    bases = [merged(face, chosen_face) if number == chosen else face for number in seen]
    lines = [row_of(items[number], base, pen) for number, base in zip(seen, bases)]
    inside = min(max(map(len, lines), default=0), columns)
    return [shown(line, 0, inside, pen.style(base)) for line, base in zip(lines, bases)]


def place_of(box, anchor, style, rows, columns):
    """The row and the column at which a box is put: beside the place that it tells of, or at the bottom, or in the middle."""
    height, wide = len(box), len(box[0])
    row, column = anchor
    if style == "modal":
        return (rows - height) // 2, (columns - wide) // 2
    if style == "menu":
        return rows - height, 0
    if not style.startswith("inline"):
        return rows - height, columns - wide
    above, below = row - height, row + 1
    fits_below = below + height <= rows
    top = above if above >= 0 and (style == "inlineAbove" or not fits_below) else below
    return max(0, min(top, rows - height)), max(0, min(column, columns - wide))


def put_over(rows, box, place):
    """Puts a box over rows of cells, which stay as long as they are."""
    top, left = place
    for number, cells in enumerate(box, top):
        if 0 <= number < len(rows):
            before, after = rows[number], left + len(cells)
            rows[number] = shown(before, 0, left, cells[0][1]) + cells + rest_of(before, after)


def rest_of(cells, first):
    """The cells from one on; half of a wide character is a space."""
    rest = cells[first:]
    return [(" ", rest[0][1]), *rest[1:]] if rest and not rest[0][0] else rest
