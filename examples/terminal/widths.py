"""How many cells a character takes: as many as the server counts, so that its columns are ours."""
import functools
import unicodedata

# the characters that take as many cells as stands here, and not those of their category or their width in East Asia
OTHERS = {
    0: "9BE 9D7 B3E B57 BBE BD7 CC0 CC2 CC7-CC8 CCA-CCB CD5-CD6 D3E D4E D57 DCF DDF 1160-11FF 1715 1734 1B35 1B3B 1B3D 1B43-1B44 1BAA "
       "1BF2-1BF3 302E-302F 3164 A8FA A953 A9C0 D7B0-D7C6 D7CB-D7FB FFA0 111C0 111C2-111C3 11235 1133E 1134D 11357 114B0 114BD 115AF "
       "116B6 11930 1193D 1193F 11941 11A84-11A89 11D46 16FF0-16FF1 1D165-1D166 1D16D-1D172",
    1: "600-604 6DD 2D7F FFF9-FFFB 110BD 110CD 1171E 13430-13438",
    2: "17A4 2630-2637 268A-268F 4DC0-4DFF 1D300-1D356 1D360-1D376",
    3: "17D8",
}


def ranges(text):
    """The first and the last of each range of numbers that a text tells."""
    for word in text.split():
        first, _, last = word.partition("-")
        yield int(first, 16), int(last or first, 16)


KNOWN = {number: cells for cells, text in OTHERS.items() for first, last in ranges(text) for number in range(first, last + 1)}


@functools.lru_cache(1 << 16)
def width(character):
    """The cells that a character takes: a combining one takes none, a wide one two. A control character has no width."""
    category = unicodedata.category(character)
    if category == "Cc":
        return None
    if ord(character) in KNOWN:
        return KNOWN[ord(character)]
    if category in ("Mn", "Me", "Cf"):
        return 0
    return 2 if unicodedata.east_asian_width(character) in "WF" else 1
