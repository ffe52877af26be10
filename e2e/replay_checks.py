"""Replays: lines of several clients, which `kakreplay` plays on one session in the order in which they are written."""
import os
import pathlib
import tempfile

from drawings import CURSOR, CURSOR_ON_NEWLINE, DEFAULT, OPENING, PARSE, TOO_LONG, atom, drawing, keys_line, opening
from edit_checks import last_drawing
from file_checks import files_of
from processes import run_whole, run_with_files
from status_checks import status_of

TOP = pathlib.Path(__file__).resolve().parent.parent
# sessions of several clients; and of clients whose user interfaces report what stands on their screens at the end
TOPICS = ["clients", "screens"]

# so many entries the history of a replay may have, those of leaving aside, and so many bytes of input are taken
MAX_ENTRIES = 4_000_000
MAX_INPUT = 2 ** 30
# the room for addresses in which a run finds no memory for a million keys
MEMORY = 2 ** 26
MILLION = 1_000_000

WRONG_WORDS = [
    [], [""], ["json"] * 65, ["terminal"], ["JSON"], ["json "], ["json", ""], ["json", "-ui"], ["-ui", "json"], ["json silent"],
    ["Screen"], ["screens"], ["screen", "scree"],
    ["silent", "json", "jso"], ["--help"], [b"json\xff"], [b"json", b"\xff"],
]


def line(who, *texts):
    """A client's line that plays these key texts."""
    return b"%d " % who + keys_line(*texts)


def at(name, lines, place, cursor):
    """A drawing of the first buffer for the client with this number in its name."""
    return drawing(lines, f"*scratch* {place} normal 1/1 - client{name}", cursor)


EMPTY = [[atom("\n", CURSOR_ON_NEWLINE)]]
HI = [[atom("hi", DEFAULT), atom("\n", CURSOR_ON_NEWLINE)]]
# the same, seen by a client that has just come
HI_SEEN = [[atom("h", CURSOR), atom("i\n", DEFAULT)]]

# a client's name has the least number that nobody here has: the first to come is `client0`, whatever its number is
TYPED = line(0, "ihi<esc>")
NO_KEYS = line(1)
QUIT = ":quit<ret>"
FIRST = at(0, EMPTY, "1:1", (0, 0))
SECOND = at(1, EMPTY, "1:1", (0, 0))
SECOND_HI = at(1, HI_SEEN, "1:1", (0, 0))
THIRD = at(2, HI_SEEN, "1:1", (0, 0))
SHOWN = OPENING + at(0, HI, "1:3", (0, 2))

BAD_LINES = [
    b"2 {}", b"64 {}", b"9999 {}", b"00001 {}", b"10000 {}", b"18446744073709551616 {}", b"{}", b"0{}", b"0", b"0\t{}", b" 0 {}", b"\t0 {}",
    b"-1 {}", b"+0 {}", b"0x0 {}", b"a {}", b"0,1 {}", b"\xff", b"\x00", b"0\r", b"\xd9\xa0 {}",
]

WINDOWS = "the two windows that the pages tell of"

# the words, the input, the status, the output
RUNS = {
    "nobody comes": (["json", "json"], b"", 0, b""),
    "blank lines": (["json", "json"], b"\n \t\r\n\r\n  ", 0, b""),
    "a client comes with its first line": (["json", "json"], NO_KEYS, 0, OPENING + FIRST),
    "an empty line of a client": (["json"], b"0 \n", 0, OPENING),
    "a blank line of a client": (["json"], b"0  \t\n", 0, OPENING),
    "a client that isn't shown anything": (["json", "silent"], TYPED, 0, SHOWN),
    "nobody is shown anything": (["silent", "json"], TYPED, 0, b""),
    "one that is shown what another typed": (["silent", "json"], TYPED + NO_KEYS, 0, opening(SECOND_HI) + SECOND_HI),
    "leading zeros": (["json"], b"0000 " + keys_line("ihi<esc>"), 0, SHOWN),
    "no newline at the end": (["json"], TYPED[:-1], 0, SHOWN),
    "carriage returns": (["json"], b"\r\n" + TYPED[:-1] + b"\r\n", 0, SHOWN),
    "a refused line": (["json"], b"0 {\n" + TYPED, 0, OPENING + PARSE + at(0, HI, "1:3", (0, 2))),
    "the space behind the number isn't the client's": (["json"], b"0 \xff\n", 0, OPENING + PARSE),
    "too long a line": (["json"], b"0 " + b" " * 1_048_577 + b"\n", 0, OPENING + TOO_LONG),
    "a line that isn't too long with its number": (["json"], b"0 " + b" " * 1_048_576 + b"\n", 0, OPENING),
    "reports stand in the order of the numbers": (["json", "json"], NO_KEYS + TYPED, 0, opening(SECOND) + at(1, HI, "1:3", (0, 2)) + OPENING + FIRST),
    "the last of 64 clients": (["silent"] * 63 + ["json"], b"63 \n", 0, OPENING),
    WINDOWS: (["json", "json"], TYPED + line(1, "ge"), 0, SHOWN + opening(SECOND_HI) + at(1, HI, "1:3", (0, 2))),
    "a name that is free again": (["silent", "silent", "json"], line(0) + line(1) + line(0, QUIT) + b"2 \n", 0, OPENING),
    # quitting
    "a client that quits, and nobody is here": (["json", "json"], line(0, QUIT) + NO_KEYS, 0, OPENING + FIRST),
    "no line is read behind that": (["json"], line(0, QUIT) + b"bad\n", 0, OPENING + FIRST),
    "lines of one that has gone": (["json", "json"], NO_KEYS + line(0, QUIT) + TYPED + b"0 {\n0 \n" + NO_KEYS, 0, opening(SECOND) + SECOND + OPENING + FIRST * 2),
    "bad lines are seen behind a quit": (["json", "json"], NO_KEYS + line(0, QUIT) + b"0{}\n", 7, opening(SECOND) + SECOND + OPENING + FIRST),
    "both quit": (["json", "json"], NO_KEYS + line(0, QUIT) + line(1, QUIT) + b"bad\n", 0, opening(SECOND) + SECOND + OPENING + FIRST * 2),
    "keys behind quit in its line": (["json"], line(0, QUIT + "ilater<esc>"), 0, OPENING + FIRST),
    # screens
    "what stands on a screen at the end": (["screen"], TYPED, 0, b"hi\n"),
    "a screen on which nothing changed": (["screen"], NO_KEYS.replace(b"1", b"0", 1), 0, b"\n"),
    "a screen of a client that never came": (["screen", "silent"], NO_KEYS, 0, b""),
    "a refused line alone": (["screen"], b"0 {\n", 0, b"\n"),
    "a refused line leaves the screen": (["screen"], TYPED + b"0 {\n", 0, b"hi\n"),
    "two screens and what one was sent": (["screen", "json", "screen"], TYPED + b"2 \n" + NO_KEYS + line(0, "ghiO<esc>"), 0, b"Ohi\n" + opening(THIRD) + THIRD + b"hi\n"),
    "lines that are cut have their newline": (["screen"], line(0, "i" + "x" * 100 + "<ret>y<esc>gg"), 0, b"x" * 80 + b"\ny\n"),
    # lines that are no client's
    "two of two clients": (["json", "silent"], line(2, "ihi<esc>"), 7, b""),
    "a bad line behind good ones": (["json", "json"], TYPED + NO_KEYS + b"2 {}\n" + TYPED, 7, SHOWN + opening(SECOND_HI) + SECOND_HI),
    "a number without its space": (["json"], TYPED + TYPED.replace(b" ", b""), 7, SHOWN),
}

OLD = "".join(f"old {k}\n" for k in range(1, 2001))
NEW = OLD.replace("old", "new")[:-1] + "!\n"
TEXT = {"notes": b"one\ntwo\n"}
NOTES = {"notes.txt": OLD.encode()}
# what the window shows at the end of that: each selection where it has typed, and what stood there while it was typing
CHANGED = "".join(f"new< >{k}\n" for k in range(1977, 2000)) + "new< >2000!\n"
CHANGING = "".join(f"ne {k}\n" for k in range(1977, 2000)) + "ne 2000!<\n>"
# and what it shows when the last letters were typed behind all of them
STAYING = "".join(f"new {k}\n" for k in range(1977, 2000)) + "new 2000!?<\n>"
ABC = (0, "iabcdef<esc>gg")

# the files that there are, the lines of two clients, what each is drawn last (a marked text, mode line and status), and the
# files that are there then, with what is as before left out
BOTH = {
    "each types": ({}, [(0, "iab<esc>"), (1, "icd<esc>"), (0, "ie<esc>"), (1, "ge")],
                   ("cdabe<\n>", "*scratch* 1:6 normal 1/1", ""), ("cdabe<\n>", "*scratch* 1:6 normal 1/1", ""), {}),
    "one takes back what the other typed": ({}, [(0, "iab<esc>"), (1, "icd<esc>"), (0, "u"), (1, "")],
                                            ("<a>b\n", "*scratch* 1:1 normal 1/1", ""), ("<a>b\n", "*scratch* 1:1 normal 1/1", ""), {}),
    "and makes it again": ({}, [(0, "iab<esc>"), (1, "icd<esc>"), (0, "u"), (1, "U"), (0, "")],
                           ("cd<a>b\n", "*scratch* 1:3 normal 1/1", ""), ("<cd>ab\n", "*scratch* 1:2 normal 2/2", ""), {}),
    "both are typing": ({}, [(0, "iab"), (1, "icd"), (0, "e"), (1, "f<esc>"), (0, "<esc>")],
                        ("cdfabe<\n>", "*scratch* 1:7 normal 1/1", ""), ("cdf<a>be\n", "*scratch* 1:4 normal 1/1", ""), {}),
    "a register is everybody's": ({}, [(0, "iab<esc>ghly"), (1, "p")],
                                  ("a<b>\n", "*scratch* 1:2 normal 1/1", ""), ("a<b>b\n", "*scratch* 1:2 normal 1/1", ""), {}),
    "a file that both edit and one writes": (TEXT, [(0, ":edit notes<ret>"), (1, ":edit notes<ret>"), (0, "iA<esc>"), (1, "gei!<esc>"), (0, ":write<ret>")],
                                             ("A<o>ne\ntwo!\n", "notes 1:2 normal 1/1", ""), ("Aone\ntwo!<\n>", "notes 2:5 normal 1/1", ""), {"notes": b"Aone\ntwo!\n"}),
    "a file that is changed isn't left": (TEXT, [(0, ":edit notes<ret>"), (1, ":edit notes<ret>iA<esc>"), (0, QUIT), (1, ":write<ret>"), (0, QUIT), (0, "ilater<esc>")],
                                          ("A<o>ne\ntwo\n", "notes 1:2 normal 1/1", ""), ("A<o>ne\ntwo\n", "notes 1:2 normal 1/1", ""), {"notes": b"Aone\ntwo\n"}),
    "2,000 selections, while another types": (NOTES, [(0, ":edit notes.txt<ret>"), (1, ":edit notes.txt<ret>"), (0, "%s\\bold\\b<ret>c"), (0, "n"), (1, "gei!"), (0, "e"), (1, "<esc>"), (0, "w"), (0, "<esc>:write<ret>")],
                                              (CHANGED, "notes.txt 2000:4 normal 2000/2000", ""), (CHANGING, "notes.txt 2000:9 normal 1/1", ""), {"notes.txt": NEW.encode()}),
    "texts are put in before another's cursor": ({}, [ABC, (1, "l"), (0, ":set-register dquote '' XY<ret>"), (0, ":select 1.1,1.2 1.3,1.4<ret>"), (0, "R"), (1, "")],
                                                 ("(X)<Ye>f\n", "*scratch* 1:3 normal 2/2", ""), ("XY<e>f\n", "*scratch* 1:3 normal 1/1", ""), {}),
    "a line is taken out beside another's cursor": ({}, [(0, "ia<ret>b<esc>gg"), (1, "jl"), (0, "jxd"), (1, "")],
                                                    ("a<\n>", "*scratch* 1:2 normal 1/1", ""), ("a<\n>", "*scratch* 1:2 normal 1/1", ""), {}),
    "and one is opened there": ({}, [(0, "ia<ret>b<esc>gg"), (1, "jl"), (0, "jxd"), (0, "oc"), (1, "")],
                                ("a\nc<\n>", "*scratch* 2:2 insert 1/1", ""), ("a<\n>c\n", "*scratch* 1:2 normal 1/1", ""), {}),
    "what another takes out merges selections": ({}, [(0, "iabcdefgh<esc>gg"), (1, ":select 1.3,1.2 1.6,1.7<ret>"), (0, ":select 1.3,1.5<ret>d"), (1, "")],
                                                 ("ab<f>gh\n", "*scratch* 1:3 normal 1/1", ""), ("a<b>[fg]h\n", "*scratch* 1:2 normal 1/1", ""), {}),
    "and cuts the merged one": ({}, [(0, "iabcdefgh<esc>gg"), (1, ":select 1.3,1.2 1.6,1.7<ret>"), (0, ":select 1.3,1.5<ret>d"), (0, ":select 1.2,1.2<ret>d"), (1, "")],
                                ("a<f>gh\n", "*scratch* 1:2 normal 1/1", ""), ("a<f>[g]h\n", "*scratch* 1:2 normal 1/1", ""), {}),
    "letters of two clients in turn": ({}, [(0, "iab<esc>gg"), (1, "l"), (0, "i"), (1, "i"), (0, "x"), (1, "y"), (0, "z"), (1, "")],
                                       ("xz<a>yb\n", "*scratch* 1:3 insert 1/1", ""), ("xzay<b>\n", "*scratch* 1:5 insert 1/1", ""), {}),
    "and one is taken back": ({}, [(0, "iab<esc>gg"), (1, "l"), (0, "i"), (1, "i"), (0, "x"), (1, "y"), (0, "z"), (0, "<esc>"), (1, "<esc>"), (0, "u"), (1, "")],
                              ("x<a>yb\n", "*scratch* 1:2 normal 1/1", ""), ("xay<b>\n", "*scratch* 1:4 normal 1/1", ""), {}),
    "what changes nothing ends nobody's group": ({}, [(0, "ia"), (1, "\"zp"), (0, "b<esc>u"), (1, "")],
                                                 ("<\n>", "*scratch* 1:1 normal 1/1", ""), ("<\n>", "*scratch* 1:1 normal 1/1", ""), {}),
    "what another is typing is written, and is a change of its own": (TEXT, [(0, ":edit notes<ret>"), (1, ":edit notes<ret>"), (0, "iX"), (1, ":write<ret>"), (0, "Y<esc>u"), (1, "")],
                                                                     ("X<o>ne\ntwo\n", "notes 1:2 normal 1/1", ""), ("X<o>ne\ntwo\n", "notes 1:2 normal 1/1", ""), {"notes": b"Xone\ntwo\n"}),
    "the last client stays with what it changed": (NOTES, [(0, ":edit notes.txt<ret>"), (1, ":edit notes.txt<ret>"), (0, "%s\\bold\\b<ret>c"), (0, "new"), (1, "gei!<esc>"), (0, "<esc>:write<ret>"), (0, QUIT), (1, "i?<esc>" + QUIT)],
                                                   (CHANGED, "notes.txt 2000:4 normal 2000/2000", ""), (STAYING, "notes.txt 2000:11 normal 1/1", "modified buffers remain: notes.txt"), {"notes.txt": NEW.encode()}),
}


def run(program, report):
    pages(report)
    sessions(program, report)
    runs(program, report)
    both(program, report)
    faults(program, report)
    limits(program, report)


def pages(report):
    """The lines of two windows stand in the pages as they are played."""
    for page in ("README.md", "docs/PROTOCOL.md"):
        report.check(f"{page} shows the lines of two windows", True, RUNS[WINDOWS][1].decode() in (TOP / page).read_text())


def sessions(program, report):
    for topic in TOPICS:
        play_all(program, report, topic)


def play_all(program, report, topic):
    """Whole sessions: NNN.in gives NNN.out and the status of NNN.status, or 0, and the files of NNN.after."""
    inputs = sorted((TOP / "e2e" / topic).glob("*.in"))
    report.check(f"{topic}: there are sessions to be played", True, bool(inputs))
    for given in inputs:
        name = f"{topic}: session {given.stem}"
        words = given.with_suffix(".words").read_text().splitlines()
        status = given.with_suffix(".status")
        ended, files = run_with_files(program, words, given.read_bytes(), files_of(given.with_suffix(".before")))
        report.check_run(name, int(status.read_text()) if status.exists() else 0, given.with_suffix(".out").read_bytes(), ended)
        report.check(f"{name}: files", files_of(given.with_suffix(".after")), files)


def runs(program, report):
    for words in WRONG_WORDS:
        report.check_run(f"replays: the words {words}", 1, b"", run_whole(program, words, TYPED))
    for bad in BAD_LINES:
        report.check_run(f"replays: the line {bad}", 7, SHOWN, run_whole(program, ["json", "json"], TYPED + bad + b"\n" + TYPED))
    for name, (words, given, status, output) in RUNS.items():
        report.check_run(f"replays: {name}", status, output, run_whole(program, words, given))


def reports(output):
    """The reports of an output, each of which begins with the options of its client."""
    first = OPENING.splitlines(True)[0]
    return [first + rest for rest in output.split(first)[1:]]


def both(program, report):
    for name, (files, lines, one, other, left) in BOTH.items():
        given = b"".join(line(who, keys) for who, keys in lines)
        ended, there = run_with_files(program, ["json", "json"], given, files)
        report.check(f"replays: {name}: status", 0, ended.status)
        told = [last_drawing(each) for each in reports(ended.output)]
        wanted = [(text, f"{mode} - client{who}", status) for who, (text, mode, status) in enumerate([one, other])]
        report.check(f"replays: {name}", wanted, told)
        report.check(f"replays: {name}: files", {**files, **left}, there)


def status_into(output, program, words, given):
    """The status of a run on an input with that standard output, and what it wrote to standard error."""
    with tempfile.TemporaryFile() as lines:
        lines.write(given)
        lines.seek(0)
        return status_of(program, lines, output, words)


def faults(program, report):
    # nobody reads what the program writes
    reads, writes = os.pipe()
    os.close(reads)
    report.check("replays: closed standard output", (3, b""), status_into(writes, program, ["json"], TYPED))
    os.close(writes)
    with open("/dev/full", "wb") as full:
        report.check("replays: full standard output", (3, b""), status_into(full, program, ["json"], TYPED))
        report.check("replays: nothing is written for a silent client", (0, b""), status_into(full, program, ["silent", "json"], TYPED))
        report.check("replays: nor where nobody comes", (0, b""), status_into(full, program, ["json"], b""))
        report.check("replays: a bad line is told before that", (7, b""), status_into(full, program, ["json"], TYPED + b"bad\n"))
    # a folder can be opened, and each read of it fails
    folder = os.open("/", os.O_RDONLY)
    with tempfile.TemporaryFile() as kept:
        report.check("replays: standard input that can't be read", (2, b""), status_of(program, folder, kept, ["json", "json"]))
        kept.seek(0)
        report.check_output("replays: standard input that can't be read: standard output", b"", kept.read())
    os.close(folder)


def limits(program, report):
    # no report is written where memory was wanting
    with tempfile.TemporaryFile() as given:
        given.write(TYPED + line(0, "l" * MILLION) * 4)
        report.check_run("replays: no memory", 4, b"", run_whole(program, ["json"], given, MEMORY))
    # two clients' comings and first drawings are four entries; a line is one for each key, and one for its drawing
    lines = line(0, "h" * MILLION) * 3 + NO_KEYS
    left = MAX_ENTRIES - 4 - 3 * (MILLION + 1) - 1
    for name, keys, status, drawings in (("full", left - 1, 0, 4), ("overfull", left, 5, 3)):
        ended = run_whole(program, ["json", "json"], lines + line(0, "h" * keys))
        report.check_run(f"replays: {name} history", status, OPENING + FIRST * drawings + opening(SECOND) + SECOND, ended)
    # lines of 2^24 bytes, most of them in the holes of a file, then one that ends with the last byte that is taken
    size = 2 ** 24
    with tempfile.TemporaryFile() as given:
        for start in range(0, MAX_INPUT, size):
            given.seek(start)
            given.write(b"0 ")
            end = start + size if start + size < MAX_INPUT else MAX_INPUT - len(TYPED)
            given.seek(end - 1)
            given.write(b"\n")
        given.write(TYPED + line(0, "ilater<esc>"))
        ended = run_whole(program, ["json"], given)
    report.check_run("replays: too long an input", 6, OPENING + TOO_LONG * (MAX_INPUT // size) + at(0, HI, "1:3", (0, 2)), ended)
