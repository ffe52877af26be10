"""With which status the program ends, and what it has written by then."""
import os
import subprocess
import tempfile

from drawings import CURSOR, CURSOR_ON_NEWLINE, OPENING, DEFAULT, ERROR, atom, drawing, keys_line, opening
from processes import SECONDS, EndedEarly, Talk, run_whole, run_with_files

# words that aren't `-ui json`, or these and a file's name
WRONG_WORDS = [
    [], [""], ["-ui"], ["json"], ["json", "-ui"], ["-ui", "terminal"], ["-ui", "JSON"], ["-ui", "jsonx"], ["-ui=json"], ["-ui json"],
    ["-ui", "json", ""], ["-ui", "json", "a\nb"], ["-ui", "json", "a\x7f"], ["-ui", "json", "\u0085"], ["-ui", "json", "a" * 256],
    ["-ui", "json", "a", "b"], ["-ui", "json", "-ui", "json"], ["-ui", "terminal", "a"], ["a", "-ui", "json"], ["--help"],
    ["--version"], ["-n", "-ui", "json"], [b"-ui", b"json\xff"], [b"-ui", b"json", b"\xff"],
]

EMPTY = [[atom("\n", CURSOR_ON_NEWLINE)]]
NORMAL = "*scratch* 1:1 normal 1/1 - client0"


def drawn(status=()):
    return drawing(EMPTY, NORMAL, (0, 0), status)


def run(program, report):
    ends_of_input(program, report)
    quitting(program, report)
    usage(program, report)
    faults(program, report)


def ends_of_input(program, report):
    play = lambda given: run_whole(program, ["-ui", "json"], given)
    report.check_run("empty input", 0, OPENING, play(b""))
    report.check_run("a blank line", 0, OPENING, play(b" \t\r\n\n"))
    report.check_run("no keys", 0, OPENING + drawn(), play(keys_line()))
    hi = drawing(
        [[atom("hi", DEFAULT), atom("\n", CURSOR_ON_NEWLINE)]], "*scratch* 1:3 normal 1/1 - client0", (0, 2))
    spaced = b'{ "jsonrpc": "2.0", "method": "keys", "params": ["ihi<esc>"] }'
    report.check_run("a last line without a newline", 0, OPENING + hi, play(spaced))
    report.check_run("a line that ends in a carriage return", 0, OPENING + hi, play(spaced + b"\r\n"))
    typed = drawing(
        [[atom("a", DEFAULT), atom("b", CURSOR), atom("\n", DEFAULT)], [atom("c\n", DEFAULT)]], "*scratch* 1:2 normal 1/1 - client0", (0, 1))
    report.check_run("typed text, and the cursor in it", 0, OPENING + typed, play(keys_line("iab<ret>c<esc>k")))


def quitting(program, report):
    play = lambda *lines: run_whole(program, ["-ui", "json"], b"".join(lines))
    unknown = [atom("no such command: x", ERROR)]
    later = keys_line("ilater<esc>")
    report.check_run("an unknown command", 0, OPENING + drawn(unknown), play(keys_line(":x<ret>")))
    report.check_run("quit, and a line behind it", 0, OPENING + drawn(unknown) + drawn(),
          play(keys_line(":x<ret>"), keys_line(":quit<ret>"), later))
    report.check_run("q, and a refused line behind it", 0, OPENING + drawn(), play(keys_line(":q<ret>"), b"{\n"))
    report.check_run("keys behind quit in its line do nothing", 0, OPENING + drawn(),
          play(keys_line(":quit<ret>ilater<esc>", "ilater"), later))
    report.check_run("a prompt that is left quits nothing", 0, OPENING + drawn() * 2, play(keys_line(":quit<esc>"), keys_line()))


def usage(program, report):
    for name in ["a" * 255, "./-ui", "<esc>", "a b"]:
        named = opening(drawing(EMPTY, f"{name} 1:1 normal 1/1 - client0", (0, 0)))
        report.check_run(f"the name {name}", 0, named, run_whole(program, ["-ui", "json", name], b""))
    fault = opening(drawn([atom("file fault: folder", ERROR)]))
    done, _files = run_with_files(program, ["-ui", "json", "folder"], b"", {"folder/file": b"text\n"})
    report.check_run("the name of a folder", 0, fault, done)
    unknown = opening(drawn([atom("unknown switch: -ui", ERROR)]))
    report.check_run("a name that begins with a dash", 0, unknown, run_whole(program, ["-ui", "json", "-ui"], b""))
    for words in WRONG_WORDS:
        report.check_run(f"the words {words}", 1, b"", run_whole(program, words, keys_line("ihi<esc>")))


def status_of(program, given, output, words=("-ui", "json")):
    """The status of a run with that standard input and output, and what it wrote to standard error."""
    with tempfile.TemporaryDirectory() as folder:
        try:
            done = subprocess.run([program, *words], stdin=given, stdout=output, stderr=subprocess.PIPE, cwd=folder, timeout=SECONDS)
        except subprocess.TimeoutExpired as late:
            return "timeout", late.stderr or b""
    return done.returncode, done.stderr


def faults(program, report):
    # nobody reads what the program writes
    reads, writes = os.pipe()
    os.close(reads)
    report.check("closed standard output", (3, b""), status_of(program, subprocess.DEVNULL, writes))
    os.close(writes)
    with open("/dev/full", "wb") as full:
        report.check("full standard output", (3, b""), status_of(program, subprocess.DEVNULL, full))
    output_closed_later(program, report)
    # a folder can be opened, and each read of it fails
    folder = os.open("/", os.O_RDONLY)
    with tempfile.TemporaryFile() as kept:
        report.check("standard input that can't be read", (2, b""), status_of(program, folder, kept))
        kept.seek(0)
        report.check_output("standard input that can't be read: standard output", OPENING, kept.read())
    os.close(folder)


def output_closed_later(program, report):
    """The first drawing is taken, and then nobody reads any more."""
    with tempfile.TemporaryDirectory() as folder:
        talk = Talk([program, "-ui", "json"], folder)
        try:
            report.check_output("standard output that is closed later: the first drawing", OPENING, talk.drawing())
            talk.process.stdout.close()
            talk.send(keys_line("ihi<esc>"))
            report.check("standard output that is closed later: status", 3, talk.process.wait())
        except EndedEarly:
            report.fail("standard output that is closed later", "expected the first drawing", "the program ended, or none came")
        finally:
            talk.stop()
