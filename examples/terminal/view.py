"""What a server drew, placed in a terminal of some size."""
import re

from . import boxes
from .cells import put, shown
from .faces import PLAIN, REVERSED, face_of, merged
from .requests import COLUMNS, ROWS
from .screen import BAR, BLOCK, Picture

# the rows below the text: the status line and the mode line
LOWER = 2
MODE = re.compile(r" \d+:\d+ (normal|insert|prompt) \d+/\d+ - \S+$")


def followed(first, room, place, count):
    """The first of so many places that are seen at once, of `count`: it moves by as little as it must, so that one is seen, if it is one of them."""
    first = min(first, max(0, count - room))
    return first if place is None else min(max(first, place - room + 1), place)


class Drawing:
    """The last drawing that has come whole, and what has come of the next one."""

    def __init__(self):
        plain = PLAIN._asdict()
        self.lines, self.face, self.padding = [], plain, plain
        self.status, self.mode, self.status_face = [], [], plain
        self.where, self.line, self.column = "buffer", 0, 0
        self.info = self.menu = self.fault = None
        self.coming = []

    def take(self, method, given):
        """Takes a part of a drawing, and shows all parts when it is complete. Whether it is."""
        self.coming.append((method, given))
        if method != "refresh":
            return False
        coming, self.coming = self.coming, []
        for part in coming:
            self.show(*part)
        return True

    def show(self, method, given):
        if method == "draw":
            self.lines, self.face, self.padding = given[:3]
        elif method == "draw_status":
            self.status, self.mode, self.status_face = given[:3]
            self.fault = None
        elif method == "set_cursor":
            self.where, self.line, self.column = given[0], given[1]["line"], given[1]["column"]
        elif method == "info_show":
            self.info = given
        elif method == "menu_show":
            self.menu = [*given, -1]
        elif method == "menu_select" and self.menu:
            self.menu[-1] = given[0]
        elif method == "info_hide":
            self.info = None
        elif method == "menu_hide":
            self.menu = None

    def mode_name(self):
        """`normal`, `insert` or `prompt`, as the mode line has it; a server that says it otherwise is taken to be in normal mode."""
        found = MODE.search("".join(atom["contents"] for atom in self.mode))
        return found[1] if found else "prompt" if self.where == "prompt" else "normal"


class View:
    """What is seen of a drawing in a terminal: the part of the text that has the cursor, and two rows below it."""

    def __init__(self, pen):
        self.pen = pen
        self.resize(ROWS + LOWER, COLUMNS)
        self.top = self.left = self.status_left = 0
        self.seen = PLAIN, []

    def resize(self, rows, columns):
        self.rows, self.columns = max(1, rows), max(1, columns)
        self.room = max(1, rows - LOWER)

    def picture(self, drawing, window_rows):
        """The picture of a drawing of a window that has so many rows."""
        base = face_of(drawing.face)
        lines = self.lines_of(drawing, base)
        line, column = (drawing.line, drawing.column) if drawing.where == "buffer" else (None, None)
        self.top = followed(self.top, self.room, line, len(lines))
        self.left = followed(self.left, self.columns, column, max(map(len, lines), default=0))
        rows = [shown(cells, self.left, self.columns, self.pen.style(base)) for cells in lines[self.top:self.top + self.room]]
        rows += [self.below(drawing, base, len(lines) >= window_rows) for _ in range(self.room - len(rows))]
        self.put_boxes(drawing, rows)
        rows = (rows + [self.status_row(drawing), self.mode_row(drawing)])[:self.rows]
        return Picture(rows, self.cursor(drawing), BAR if drawing.mode_name() == "insert" else BLOCK)

    def lines_of(self, drawing, base):
        """The lines of a drawing as rows of cells. Those that stand where they stood before aren't made anew."""
        known = self.seen[1] if self.seen[0] == base else []
        rows = []
        for number, line in enumerate(drawing.lines):
            is_same = number < len(known) and known[number][0] == line
            rows.append(known[number][1] if is_same else boxes.row_of(line, base, self.pen))
        self.seen = base, list(zip(drawing.lines, rows))
        return rows

    def below(self, drawing, base, is_full):
        """A row below the last line; where the text may go on there, it is blank."""
        style = self.pen.style(base if is_full else merged(base, face_of(drawing.padding)))
        return [(" " if is_full else "~", style)] + [(" ", style)] * (self.columns - 1)

    def status_row(self, drawing):
        base = face_of(drawing.status_face)
        cells = boxes.row_of(drawing.status, base, self.pen)
        if drawing.fault:
            cells = []
            put(cells, drawing.fault, self.pen.style(REVERSED))
        place = drawing.column if drawing.where == "prompt" else 0
        self.status_left = followed(self.status_left, self.columns, place, max(len(cells), place + 1))
        return shown(cells, self.status_left, self.columns, self.pen.style(base))

    def mode_row(self, drawing):
        """The mode line, or its end where it is too long."""
        base = face_of(drawing.status_face)
        cells = boxes.row_of(drawing.mode, base, self.pen)
        over = len(cells) - self.columns
        if over > 0:
            cells = [("…", cells[0][1]), *boxes.rest_of(cells, over + 1)]
        return shown(cells, 0, self.columns, self.pen.style(base))

    def put_boxes(self, drawing, rows):
        size = self.room, self.columns
        if drawing.menu:
            items, anchor, *faces, style, chosen = drawing.menu
            self.put_box(rows, boxes.menu_rows(items, chosen, faces, self.pen, *size), anchor, style if style == "inline" else "menu")
        if drawing.info:
            title, content, anchor, face, style = drawing.info
            self.put_box(rows, boxes.info_rows(title, content, face, self.pen, *size), anchor, style)

    def put_box(self, rows, box, anchor, style):
        if box and box[0]:
            place = anchor["line"] - self.top, anchor["column"] - self.left
            boxes.put_over(rows, box, boxes.place_of(box, place, style, self.room, self.columns))

    def cursor(self, drawing):
        """The row and column of the cursor in the terminal, if it is seen there."""
        row, column = drawing.line - self.top, drawing.column - self.left
        if drawing.where == "prompt":
            row, column = self.room, drawing.column - self.status_left
        return (row, column) if 0 <= row < self.rows and 0 <= column < self.columns else None

    def place_in_window(self, row, column):
        """The line and column of the window at a place of the terminal; nothing below its text."""
        return (row + self.top, column + self.left) if 0 <= row < self.room and column >= 0 else None
