"""Faces, and how a terminal is told to write in them."""
import functools
import re
from typing import NamedTuple

COLOURS = ("black", "red", "green", "yellow", "blue", "magenta", "cyan", "white")
ATTRIBUTES = {
    "bold": "1", "dim": "2", "italic": "3", "underline": "4", "blink": "5", "reverse": "7", "strikethrough": "9",
    "double_underline": "4:2", "curly_underline": "4:3",
}
RGB = re.compile(r"(?:#|rgb:)([0-9a-fA-F]{6})|rgba:([0-9a-fA-F]{8})")
# the red, green and blue of the 216 colours that a terminal of 256 has, and how many grey ones stand behind them
LEVELS = (0, 95, 135, 175, 215, 255)
GREYS = [8 + 10 * step for step in range(24)]
RESET = "\x1b[0m"


class Face(NamedTuple):
    """A face: names of colours and of attributes."""
    fg: str = "default"
    bg: str = "default"
    underline: str = "default"
    attributes: tuple = ()


PLAIN = Face()
REVERSED = Face(attributes=("reverse",))


def face_of(given):
    """The face of a drawing."""
    return Face(given["fg"], given["bg"], given.get("underline", "default"), tuple(given["attributes"]))


@functools.lru_cache(1024)
def rgb_of(colour):
    """The red, green, blue and alpha of a colour that is no name."""
    found = RGB.fullmatch(colour)
    return bytes.fromhex(found[2] or found[1] + "ff") if found else None


def laid(base, over):
    """A colour over another one: a colour with an alpha lets the other one shine through, where that one is no name."""
    if over == "default":
        return base
    below, above = rgb_of(base), rgb_of(over)
    if not below or not above or above[3] == 255:
        return over
    blend = lambda one, other: (one * (255 - above[3]) + other * above[3] + 127) // 255
    return "#" + bytes(map(blend, below[:3], above[:3])).hex()


@functools.lru_cache(4096)
def merged(base, over):
    """A face over another one. A face with `final_fg`, `final_bg` or `final_attr` keeps that part whatever lies over it."""
    has = lambda face, final: final in face.attributes
    colour = lambda part, final: (
        getattr(over, part) if has(over, final) else getattr(base, part) if has(base, final) else laid(getattr(base, part), getattr(over, part)))
    both = base.attributes + tuple(word for word in over.attributes if word not in base.attributes)
    attributes = over.attributes if has(over, "final_attr") else base.attributes if has(base, "final_attr") else both
    return Face(colour("fg", "final_fg"), colour("bg", "final_bg"), colour("underline", ""), attributes)


def distance(one, other):
    return sum((a - b) ** 2 for a, b in zip(one, other))


@functools.lru_cache(1024)
def nearest(red, green, blue):
    """The number of the nearest of a terminal's colours from 16 to 255."""
    steps = [min(range(6), key=lambda step: abs(LEVELS[step] - part)) for part in (red, green, blue)]
    grey = min(range(24), key=lambda step: abs(3 * GREYS[step] - red - green - blue))
    in_cube = distance([LEVELS[step] for step in steps], (red, green, blue))
    if distance([GREYS[grey]] * 3, (red, green, blue)) < in_cube:
        return 232 + grey
    return 16 + 36 * steps[0] + 6 * steps[1] + steps[2]


class Pen:
    """How a terminal is told to write in a face. It has 24-bit colours, or else 256."""

    def __init__(self, has_all_colours):
        self.has_all_colours = has_all_colours
        self.known = {}
        self.known_over = {}

    def style_over(self, base, given):
        """What makes the terminal write in a drawing's face that lies over another one."""
        name = (base, given["fg"], given["bg"], given.get("underline"), *given["attributes"])
        if name not in self.known_over:
            self.known_over[name] = self.style(merged(base, face_of(given)))
        return self.known_over[name]

    def style(self, face):
        """What makes the terminal write in a face, whatever it wrote in before."""
        if face not in self.known:
            words = ["0", *(word for word in map(ATTRIBUTES.get, face.attributes) if word and ":" not in word)]
            words += [self.colour(face.fg, 30), self.colour(face.bg, 40)]
            # a terminal that doesn't know these passes over them alone
            others = [*(word for word in map(ATTRIBUTES.get, face.attributes) if word and ":" in word), self.underline(face.underline)]
            self.known[face] = f"\x1b[{';'.join(filter(None, words))}m" + "".join(f"\x1b[{word}m" for word in others if word)
        return self.known[face]

    def colour(self, colour, base):
        """The parameters of a colour; none for the one that the terminal has by itself."""
        if parts := rgb_of(colour):
            red, green, blue, _ = parts
            return f"{base + 8};2;{red};{green};{blue}" if self.has_all_colours else f"{base + 8};5;{nearest(red, green, blue)}"
        number = number_of(colour)
        return "" if number is None else str(base + number if number < 8 else base + 52 + number)

    def underline(self, colour):
        if parts := rgb_of(colour):
            red, green, blue, _ = parts
            return f"58:2::{red}:{green}:{blue}" if self.has_all_colours else f"58:5:{nearest(red, green, blue)}"
        number = number_of(colour)
        return "" if number is None else f"58:5:{number}"


def number_of(colour):
    """The number of a colour by its name, from 0 to 15; nothing for any other."""
    name = colour.removeprefix("bright-")
    if name not in COLOURS:
        return None
    return COLOURS.index(name) + (8 if name != colour else 0)
