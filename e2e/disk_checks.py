"""Files of the disk, read and written: links, modes, what can't be opened, what isn't there, what is forbidden, a disk that is full."""
import os
import pathlib
import resource
import socket
import subprocess
import tempfile

from drawings import keys_line
from edit_checks import last_drawing
from processes import SECONDS, EndedEarly, Talk

# the number of a user who owns nothing
NOBODY = 65534
LONGEST = 16_777_216


def run(program, report):
    links(program, report)
    modes(program, report)
    unopened(program, report)
    not_there(program, report)
    no_descriptors(program, report)
    longest(program, report)
    if os.geteuid() == 0:
        forbidden(program, report)
        full_disk(program, report)


def shown_of(program, folder, lines, user=None):
    """The marked text, the mode line and the status that the last drawing shows, or the status of a process that failed."""
    be_user = user and (lambda: os.setuid(user))
    try:
        done = subprocess.run(
            [program, "-ui", "json"], input=b"".join(map(keys_line, lines)), capture_output=True, cwd=folder,
            timeout=SECONDS, preexec_fn=be_user)
    except subprocess.TimeoutExpired:
        return None, None, "timeout"
    return last_drawing(done.stdout) if done.returncode == 0 else (None, None, done.returncode)


def status_of(program, folder, lines, user=None):
    """The status text that the last drawing shows, or the status of a process that failed."""
    return shown_of(program, folder, lines, user)[2]


def names_in(folder):
    return sorted(path.name for path in pathlib.Path(folder).iterdir())


def links(program, report):
    """A link is followed and stays, and a file with two names is one file still."""
    with tempfile.TemporaryDirectory() as folder:
        top = pathlib.Path(folder)
        (top / "file").write_bytes(b"old\n")
        (top / "link").symlink_to("file")
        status = status_of(program, folder, [":e link<ret>", "inew <esc>:w<ret>"])
        report.check("disk: a symbolic link: status", "", status)
        report.check("disk: a symbolic link stays", "file", os.readlink(top / "link"))
        report.check("disk: its file is written", b"new old\n", (top / "file").read_bytes())
        os.link(top / "file", top / "other")
        status = status_of(program, folder, [":e file<ret>", "itwo <esc>:w<ret>"])
        report.check("disk: a file with two names: status", "", status)
        report.check("disk: a file with two names: the other name", b"two new old\n", (top / "other").read_bytes())
        report.check("disk: links: nothing is left beside", ["file", "link", "other"], names_in(folder))


def modes(program, report):
    with tempfile.TemporaryDirectory() as folder:
        path = pathlib.Path(folder) / "file"
        for mode in (0o644, 0o600, 0o755):
            path.write_bytes(b"old\n")
            path.chmod(mode)
            status_of(program, folder, [":e file<ret>", "inew <esc>:w<ret>"])
            report.check(f"disk: the mode {mode:o}", (b"new old\n", mode), (path.read_bytes(), path.stat().st_mode & 0o777))


def unopened(program, report):
    """What can't be opened, whoever asks, is told so. It isn't taken for a file that isn't there, and it is left alone."""
    with tempfile.TemporaryDirectory() as folder:
        top = pathlib.Path(folder)
        (top / "file").write_bytes(b"old\n")
        (top / "folder").mkdir()
        (top / "circle").symlink_to("circle")
        (top / "one").symlink_to("other")
        (top / "other").symlink_to("one")
        os.mkfifo(top / "pipe")
        (top / "to-pipe").symlink_to("pipe")
        with socket.socket(socket.AF_UNIX) as dead:
            dead.bind(str(top / "socket"))
        before = names_in(folder)
        names = {
            "a folder": "folder", "a path through a file": "file/in", "a link to itself": "circle", "two links in a circle": "one",
            "a name that is too long": "a" * 256, "a named pipe": "pipe", "a link to a named pipe": "to-pipe", "a socket": "socket",
        }
        for what, name in names.items():
            fault = f"file fault: {name}"
            nothing = ("<\n>", "*scratch* 1:1 normal 1/1 - client0", fault)
            report.check(f"disk: {what} isn't opened", nothing, shown_of(program, folder, [f":e {name}<ret>"]))
            report.check(f"disk: {what} isn't written", fault, status_of(program, folder, [f"inew<esc>:w {name}<ret>"]))
        report.check("disk: unopened: all is left as it was", (before, b"old\n"), (names_in(folder), (top / "file").read_bytes()))


def not_there(program, report):
    """A file isn't there where nothing stands under its name, also behind a link or in a folder that isn't there."""
    with tempfile.TemporaryDirectory() as folder:
        top = pathlib.Path(folder)
        (top / "link").symlink_to("missing")
        for name in ("new", "link", "none/new"):
            shown = ("<\n>", f"{name} 1:1 normal 1/1 - client0", "")
            report.check(f"disk: {name} isn't there, and is a new buffer", shown, shown_of(program, folder, [f":e {name}<ret>"]))
        report.check("disk: a link to a file that isn't there", "", status_of(program, folder, [":e link<ret>", "inew<esc>:w<ret>"]))
        report.check("disk: makes that file", (b"new\n", "missing"), ((top / "missing").read_bytes(), os.readlink(top / "link")))
        report.check("disk: a folder that isn't there", "file fault: none/new", status_of(program, folder, [":e none/new<ret>", "inew<esc>:w<ret>"]))
        report.check("disk: isn't made", ["link", "missing"], names_in(folder))


def no_descriptors(program, report):
    """A file that is there isn't taken for one that isn't, nor is it touched, while the process may open nothing more."""
    with tempfile.TemporaryDirectory() as folder:
        path = pathlib.Path(folder) / "file"
        path.write_bytes(b"old\n")
        talk = Talk([program, "-ui", "json"], folder)

        def play(keys):
            talk.send(keys_line(keys))
            return last_drawing(talk.drawing())

        try:
            talk.drawing()
            least, most = resource.prlimit(talk.process.pid, resource.RLIMIT_NOFILE)
            # standard input, output and error are open, and nothing else may be
            resource.prlimit(talk.process.pid, resource.RLIMIT_NOFILE, (3, most))
            report.check("disk: no descriptor is left: a file isn't opened", ("<\n>", "*scratch* 1:1 normal 1/1 - client0", "file fault: file"), play(":e file<ret>"))
            report.check("disk: no descriptor is left: nor is it written", "file fault: file", play("inew<esc>:w file<ret>")[2])
            report.check("disk: no descriptor is left: it is as it was", (b"old\n", ["file"]), (path.read_bytes(), names_in(folder)))
            resource.prlimit(talk.process.pid, resource.RLIMIT_NOFILE, (least, most))
            report.check("disk: there are descriptors again", ("<o>ld\n", "file 1:1 normal 1/1 - client0", ""), play(":e file<ret>"))
        except EndedEarly:
            report.fail("disk: no descriptor is left", "expected drawings in time", "the program ended, or none came")
        finally:
            talk.stop()


def longest(program, report):
    """The longest text that is taken is opened and written as it is."""
    with tempfile.TemporaryDirectory() as folder:
        path = pathlib.Path(folder) / "file"
        text = b"a" * 1023 + b"\n"
        path.write_bytes(text * (LONGEST // len(text)))
        report.check("disk: the longest text", "", status_of(program, folder, [":e file<ret>", ":w copy<ret>"]))
        report.check("disk: its copy", True, path.read_bytes() == (pathlib.Path(folder) / "copy").read_bytes())
        with path.open("ab") as file:
            file.write(b"a")
        report.check("disk: one character more", "text is full", status_of(program, folder, [":e file<ret>"]))


def forbidden(program, report):
    """Files of another user, in a folder in which no file can be made."""
    with tempfile.TemporaryDirectory() as folder:
        top = pathlib.Path(folder)
        top.chmod(0o755)
        for name, mode in (("secret", 0o600), ("read-only", 0o644), ("shared", 0o666)):
            (top / name).write_bytes(b"old\n")
            (top / name).chmod(mode)
        (top / "closed").mkdir(0o700)
        (top / "closed" / "file").write_bytes(b"old\n")
        before = names_in(folder)
        play = lambda *lines: status_of(program, folder, lines, NOBODY)
        unread = lambda name: ("<\n>", "*scratch* 1:1 normal 1/1 - client0", f"file fault: {name}")
        for what, name in (("a file that may not be read", "secret"), ("a file in a folder that may not be entered", "closed/file"), ("a new one there", "closed/new")):
            report.check(f"disk: {what}", unread(name), shown_of(program, folder, [f":e {name}<ret>"], NOBODY))
        report.check("disk: nor is one written there", "file fault: closed/file", play("inew<esc>:w closed/file<ret>"))
        report.check("disk: what stands there is as it was", b"old\n", (top / "closed" / "file").read_bytes())
        report.check("disk: a file that may not be written", "file fault: read-only", play(":e read-only<ret>", "inew <esc>:w<ret>"))
        report.check("disk: it is as it was", b"old\n", (top / "read-only").read_bytes())
        report.check("disk: a file that may be written where it is", "", play(":e shared<ret>", "inew <esc>:w<ret>"))
        report.check("disk: it is written", b"new old\n", (top / "shared").read_bytes())
        report.check("disk: a new file may not be made", "file fault: new", play(":w new<ret>"))
        report.check("disk: forbidden: nothing is left beside", before, names_in(folder))


def full_disk(program, report):
    """A disk that has no room for a second file of that size: the old one stays whole, and nothing is left beside."""
    with tempfile.TemporaryDirectory() as folder:
        if subprocess.run(["mount", "-t", "tmpfs", "-o", "size=256k", "tmpfs", folder], capture_output=True).returncode != 0:
            print("disk: no small disk can be mounted here")
            return
        try:
            path = pathlib.Path(folder) / "file"
            path.write_bytes(b"old line\n" * 20_000)
            old = path.read_bytes()
            status = status_of(program, folder, [":e file<ret>", "inew <esc>:w<ret>"])
            report.check("disk: a full disk", "file fault: file", status)
            report.check("disk: a full disk: the file is whole", True, path.read_bytes() == old)
            report.check("disk: a full disk: nothing is left beside", ["file"], names_in(folder))
            status = status_of(program, folder, [":e file<ret>", "19999Gd:w<ret>"])
            report.check("disk: a shorter text has room", "", status)
        finally:
            subprocess.run(["umount", folder], check=True)
