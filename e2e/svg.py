"""What terminals show, as a picture in SVG."""
import html

from styles import cells, runs_of

# the colours that terminals have by name, and by themselves
PALETTE = {
    "black": "#1e222a", "red": "#e06c75", "green": "#98c379", "yellow": "#e5c07b", "blue": "#3d6fb5", "magenta": "#c678dd", "cyan": "#56b6c2",
    "white": "#d7dae0", "bright-black": "#5c6370", "bright-red": "#ff7b86", "bright-green": "#b5e890", "bright-yellow": "#ffd68a",
    "bright-blue": "#82c4ff", "bright-magenta": "#dd9af0", "bright-cyan": "#7fd5e0", "bright-white": "#ffffff",
}
TEXT, GROUND, FRAME, TITLE = "#c8ccd4", "#282c34", "#181a1f", "#8a919e"
LOOKS = {"bold": 'font-weight="bold"', "italic": 'font-style="italic"', "underline": 'text-decoration="underline"'}
# a cell, the room around the cells, and the height of a title, in pixels
WIDE, HIGH, ROOM, HEAD = 8, 17, 8, 22
SIZE = 13
FONT = "ui-monospace,Menlo,Consolas,'DejaVu Sans Mono',monospace"


def coloured(style):
    """The colours of a style, of its characters and of its cells; nothing for cells that are as the ground is."""
    fg = PALETTE.get(style.fg, TEXT if style.fg == "default" else style.fg)
    bg = PALETTE.get(style.bg, None if style.bg == "default" else style.bg)
    return (bg or GROUND, fg) if "reverse" in style.attributes else (fg, bg)


def run(row, column, text, style, left):
    """One run of a style, in a terminal from a place on."""
    x, y, wide = left + ROOM + column * WIDE, HEAD + ROOM + row * HIGH, cells(text) * WIDE
    fg, bg = coloured(style)
    if bg:
        yield f'<rect x="{x}" y="{y}" width="{wide}" height="{HIGH}" fill="{bg}"/>'
    if text.strip():
        looks = "".join(f" {LOOKS[name]}" for name in style.attributes if name in LOOKS)
        yield f'<text x="{x}" y="{y + HIGH - 4}" textLength="{wide}" fill="{fg}"{looks}>{html.escape(text, quote=False)}</text>'


def window(rows, columns, title, left):
    """A terminal with its title, from a place on."""
    size = f'width="{columns * WIDE + 2 * ROOM}" height="{height_of(rows)}"'
    yield f'<rect x="{left}" y="0" {size} rx="6" fill="{GROUND}" stroke="{FRAME}"/>'
    yield f'<text x="{left + ROOM}" y="{HEAD - 6}" fill="{TITLE}">$ {html.escape(title)}</text>'
    for row, column, text, style in runs_of(rows):
        kept = text if coloured(style)[1] else text.rstrip()
        yield from run(row, column, kept, style, left)


def height_of(rows):
    return HEAD + len(rows) * HIGH + 2 * ROOM


def picture(windows):
    """Terminals side by side, each told by its rows, its columns and its title, as the text of a file."""
    parts, left = [], 0
    for rows, columns, title in windows:
        parts += window(rows, columns, title, left)
        left += columns * WIDE + 3 * ROOM
    wide, high = left - ROOM, max(height_of(rows) for rows, _, _ in windows)
    size = f'width="{wide}" height="{high}" viewBox="0 0 {wide} {high}"'
    head = f'<svg xmlns="http://www.w3.org/2000/svg" {size} font-family="{FONT}" font-size="{SIZE}" xml:space="preserve">'
    return "\n".join([head, *parts, "</svg>", ""])
