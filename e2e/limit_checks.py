"""Where a run comes to its limits: memory, the entries of its history, the bytes of its input."""
import tempfile

from drawings import CURSOR_ON_NEWLINE, DEFAULT, OPENING, TOO_LONG, atom, drawing, keys_line
from processes import run_whole

# so many entries a history may have, the leaving aside, and so many bytes of input are taken
MAX_ENTRIES = 4_000_000
MAX_INPUT = 2 ** 30
# the room for addresses in which a run finds no memory for a million keys
MEMORY = 2 ** 26

MILLION = 1_000_000
FIRST = keys_line("ihi<esc>")
AT_FIRST = drawing(
    [[atom("hi", DEFAULT), atom("\n", CURSOR_ON_NEWLINE)]], "*scratch* 1:3 normal 1/1 - client0", (0, 2))
AT_START = drawing([[atom("\n", CURSOR_ON_NEWLINE)]], "*scratch* 1:1 normal 1/1 - client0", (0, 0))


def run(program, report):
    memory(program, report)
    history(program, report)
    long_input(program, report)


def memory(program, report):
    """What was sent before memory was wanting is whole turns."""
    with tempfile.TemporaryFile() as given:
        given.write(FIRST + keys_line("l" * MILLION) * 4)
        ended = run_whole(program, ["-ui", "json"], given, MEMORY)
    turns = max(1, ended.output.count(AT_FIRST))
    report.check_run("no memory, behind whole turns", 4, OPENING + AT_FIRST * turns, ended)


def history(program, report):
    """The client's coming and its first drawing are two entries; a line is one for each key, and one for its drawing."""
    lines = keys_line("h" * MILLION) * 3
    left = MAX_ENTRIES - 2 - 3 * (MILLION + 1)
    for name, keys, status, drawings in (("full", left - 1, 0, 4), ("overfull", left, 5, 3)):
        ended = run_whole(program, ["-ui", "json"], lines + keys_line("h" * keys))
        report.check_run(f"{name} history", status, OPENING + AT_START * drawings, ended)


def long_input(program, report):
    """Lines of 2^24 bytes, most of them in the holes of a file, then one that ends with the last byte that is taken."""
    size = 2 ** 24
    with tempfile.TemporaryFile() as given:
        for end in [*range(size, MAX_INPUT, size), MAX_INPUT - len(FIRST)]:
            given.seek(end - 1)
            given.write(b"\n")
        given.write(FIRST + keys_line("ilater<esc>"))
        ended = run_whole(program, ["-ui", "json"], given)
    report.check_run("too long an input", 6, OPENING + TOO_LONG * (MAX_INPUT // size) + AT_FIRST, ended)
