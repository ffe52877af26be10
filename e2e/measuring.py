"""Keys sent to a program one at a time, each when the drawing of the one before has come: for the benchmarks."""
import pathlib
import shutil
import tempfile
import time

from drawings import keys_line
from processes import Talk

PIECE = 50_000
SECONDS = 300

# the ratios that were shown, each with what it is of
RATIOS = []


def strike(talk, keys):
    talk.send(keys_line(keys))
    talk.drawing()


def median(talk, keys):
    """How long each of some keys took, in microseconds: the median."""
    took = []
    for key in keys:
        begun = time.perf_counter_ns()
        strike(talk, key)
        took.append(time.perf_counter_ns() - begun)
    return sorted(took)[len(took) // 2] / 1000


def pieces(text):
    """A text as keys, in requests that aren't too long."""
    for start in range(0, len(text), PIECE):
        yield text[start:start + PIECE].replace("\n", "<ret>")


def played(command, text, from_file, play):
    with tempfile.TemporaryDirectory() as folder:
        environment = {"HOME": folder, "XDG_RUNTIME_DIR": folder, "PATH": "/usr/local/bin:/usr/bin:/bin", "LC_ALL": "C.UTF-8"}
        if from_file:
            (pathlib.Path(folder) / "text").write_text(text + "\n")
            command = [*command, str(pathlib.Path(folder) / "text")]
        talk = Talk(command, folder, SECONDS, environment)
        try:
            talk.drawing()
            if not from_file:
                strike(talk, "i")
                for piece in pieces(text):
                    strike(talk, piece)
                strike(talk, "<esc>")
            return play(talk)
        finally:
            talk.stop()


def show(name, what, ours, theirs, each=1):
    for key, took, other in zip(what, ours, theirs or ours):
        line = f"{name:>24} {key:8} {took:12.1f} us"
        if each > 1:
            line += f", {1000 * took / each:8.1f} ns a cursor"
        if theirs:
            line += f"; Kakoune {other:12.1f} us, ratio {other / took:.2f}"
            RATIOS.append((other / took, f"{name}, {key}"))
        print(line, flush=True)


def show_all():
    """The least and the median of all ratios that were shown."""
    if not RATIOS:
        return
    ordered = sorted(RATIOS)
    least, what = ordered[0]
    slower = sum(ratio < 1 for ratio, _ in ordered)
    print(f"{len(ordered)} ratios: the least {least:.2f} ({what}), the median {ordered[len(ordered) // 2][0]:.2f}, {slower} below 1", flush=True)


def programs(words, top):
    """The command of the program to be measured, or None where it isn't built, and that of the system's Kakoune, if there is one."""
    program = pathlib.Path(words[0] if words else top / "crates/kak/out/kak").resolve()
    if not program.is_file():
        print(f"{program} isn't there: ./run kak builds it")
        return None, None
    kakoune = shutil.which("kak", path="/usr/local/bin:/usr/bin:/bin")
    if kakoune is None:
        print("no Kakoune is installed here (apt-get install kakoune), so there are no ratios")
    return [str(program), "-ui", "json"], kakoune and [kakoune, "-n", "-ui", "json"]
