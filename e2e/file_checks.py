"""Whole sessions with files: NNN.in gives NNN.out, and the files of NNN.before become those of NNN.after. The words of the
program are the lines of NNN.words, where it is there."""
import json
import pathlib

from processes import run_with_files

HERE = pathlib.Path(__file__).resolve().parent
# commands; keys and commands inside keys and commands
TOPICS = ["commands", "nesting"]


def files_of(path):
    """The files of a folder, by their paths, each with its bytes."""
    return {name: bytes.fromhex(content) for name, content in json.loads(path.read_text()).items()}


def words_of(path):
    """The words of the program, one a line."""
    return path.read_text().splitlines() if path.exists() else ["-ui", "json"]


def sessions(topic):
    return sorted((HERE / topic).glob("*.in"))


def run(program, report):
    for topic in TOPICS:
        play_all(program, report, topic)


def play_all(program, report, topic):
    report.check(f"{topic}: there are sessions to be played", True, bool(sessions(topic)))
    for given in sessions(topic):
        name = f"{topic}: session {given.stem}"
        words = words_of(given.with_suffix(".words"))
        ended, files = run_with_files(program, words, given.read_bytes(), files_of(given.with_suffix(".before")))
        report.check_run(name, 0, given.with_suffix(".out").read_bytes(), ended)
        report.check(f"{name}: files", files_of(given.with_suffix(".after")), files)
