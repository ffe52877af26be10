"""Generated sessions: what `kak gen` prints for so many clients, so many keys and a seed."""
import os
import pathlib
import subprocess

from drawings import keys_line
from processes import run_whole
from status_checks import status_of

FOLDER = pathlib.Path(__file__).resolve().parent / "generated"
# lines that would be played if they were read
UNREAD = keys_line("ihi<esc>")


def summary(clients, keys, chars, lines):
    """The summary of a session in which each client has one selection at its end."""
    head = f"entries {clients + keys}\nchars {chars}\nlines {lines}\n"
    return (head + "".join(f"client{who} sels 1\n" for who in range(clients))).encode()


# the words behind `gen`, and the characters and lines at the end: with one key, which is `y`; with none; with the ten keys
# `olkwxkhjko`, of which the first opens a line that the others are typed into; and with as many clients as there may be
RUNS = {
    ("1", "1", "0"): (1, 1), ("2", "0", "7"): (1, 1), ("1", "10", "7"): (11, 2), ("00001", "0010", "000000000000000000000007"): (11, 2),
    ("64", "0", "18446744073709551615"): (1, 1),
}

WRONG_WORDS = [
    [], ["1"], ["1", "1"], ["1", "1", "1", "1"], ["0", "1", "1"], ["65", "1", "1"], ["1", "1000001", "1"], ["1", "1", "18446744073709551616"],
    ["4294967297", "1", "1"], ["1", "4294967296", "1"], ["+1", "1", "1"], ["1", "+1", "1"], ["1", "1", "+1"], ["-1", "1", "1"], ["1", "1", "-0"],
    ["x", "1", "1"], ["1", "0x1", "1"], ["1", "1", "1.0"], ["", "1", "1"], ["1", "", "1"], ["1", "1", ""], [" 1", "1", "1"], ["1 ", "1", "1"],
    ["1", "1_000", "1"], ["\u0661", "1", "1"], [b"1\xff", "1", "1"], ["--", "1", "1"],
]


def run(program, report):
    sessions(program, report)
    runs(program, report)
    faults(program, report)


def sessions(program, report):
    """NNN.words gives NNN.out and the status of NNN.status, or 0; nothing is read."""
    named = sorted(FOLDER.glob("*.words"))
    report.check("generated: there are sessions to be played", True, bool(named))
    for words in named:
        status = words.with_suffix(".status")
        ended = run_whole(program, words.read_text().splitlines(), UNREAD)
        report.check_run(f"generated: session {words.stem}", int(status.read_text()) if status.exists() else 0, words.with_suffix(".out").read_bytes(), ended)


def runs(program, report):
    for words, (chars, lines) in RUNS.items():
        wanted = summary(int(words[0]), int(words[1]), chars, lines)
        report.check_run(f"generated: gen {' '.join(words)}", 0, wanted, run_whole(program, ["gen", *words], UNREAD))
    for words in WRONG_WORDS:
        report.check_run(f"generated: the words {words}", 1, b"", run_whole(program, ["gen", *words], UNREAD))
    report.check_run("generated: the word GEN", 1, b"", run_whole(program, ["GEN", "1", "1", "1"], UNREAD))
    report.check_run("generated: gen behind -ui", 1, b"", run_whole(program, ["-ui", "gen", "1", "1", "1"], UNREAD))
    # a session can be had again
    first, again = (run_whole(program, ["gen", "8", "20000", "1"], UNREAD) for _ in range(2))
    report.check("generated: a long session: status", 0, first.status)
    report.check("generated: a long session: entries", True, first.output.startswith(b"entries 20008\n"))
    report.check_run("generated: the same session again", 0, first.output, again)


def faults(program, report):
    words = ["gen", "2", "0", "7"]
    # nobody reads what the program writes
    reads, writes = os.pipe()
    os.close(reads)
    report.check("generated: closed standard output", (3, b""), status_of(program, subprocess.DEVNULL, writes, words))
    os.close(writes)
    with open("/dev/full", "wb") as full:
        report.check("generated: full standard output", (3, b""), status_of(program, subprocess.DEVNULL, full, words))
    # a folder can be opened, and each read of it fails; it isn't read
    folder = os.open("/", os.O_RDONLY)
    report.check("generated: standard input that can't be read", (0, b""), status_of(program, folder, subprocess.DEVNULL, words))
    os.close(folder)
