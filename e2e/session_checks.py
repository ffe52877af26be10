"""Whole sessions, whose input and output stand in folders, one a topic: NNN.in gives NNN.out and the status 0."""
import pathlib

from processes import run_whole

HERE = pathlib.Path(__file__).resolve().parent
# letters and lines in and out; motions, counts and lists of selections, on any text; undo and redo; keys that edit; objects, patterns and searches
TOPICS = ["first_path", "lists_motions", "undo", "edits", "patterns"]


def run(program, report):
    for topic in TOPICS:
        play_all(program, report, topic)


def play_all(program, report, topic):
    inputs = sorted((HERE / topic).glob("*.in"))
    report.check(f"{topic}: there are sessions to be played", True, bool(inputs))
    for given in inputs:
        ended = run_whole(program, ["-ui", "json"], given.read_bytes())
        report.check_run(f"{topic}: session {given.stem}", 0, given.with_suffix(".out").read_bytes(), ended)
