"""What is left where a run can't go on: texts that are rescued, processes that are ended by signals, folders that go, threads that
can't be had."""
import os
import pathlib
import resource
import signal
import subprocess
import tempfile
import time

from connections import play, settle
from drawings import OPENING, keys_line
from edit_checks import last_drawing
from processes import SECONDS

# the room for addresses in which a million keys of a run, and of a server with its threads, find no memory
MEMORY = 2 ** 26
SERVER_MEMORY = 2 ** 28
MILLION = 1_000_000
# keys of which the history has no room for all, and which change no text
MANY = keys_line("l" * MILLION) * 4
# the number of a user who owns nothing
NOBODY = 65534
RESCUED = ".kak-rescue"

# texts that may differ from what was saved, in two buffers, one that was saved, and one in another form
CHANGES = [
    "ihi<esc>", ":edit notes<ret>inew <esc>", ":edit saved<ret>inew <esc>:write<ret>", ":edit crlf<ret>ix<esc>",
]
BEFORE = {"notes": b"old\n", "saved": b"old\n", "crlf": b"\xef\xbb\xbfa\r\nb\r\n"}
AFTER = {**BEFORE, "saved": b"new old\n"}
RESCUES = {"*scratch*": b"hi\n", "notes": b"new old\n", "crlf": b"\xef\xbb\xbfxa\r\nb\r\n"}


def run(program, replayer, server, report):
    rescued(program, report)
    replay_rescued(replayer, report)
    play(server, report, server_rescued, files=BEFORE)
    if os.geteuid() == 0:
        full_disk_rescue(program, report)
        play(server, report, no_threads)
    for number in (signal.SIGTERM, signal.SIGHUP, signal.SIGINT):
        play(server, report, signalled, number, name=f"ended by {number.name}", files={"n": b"old\n"})
    play(server, report, no_folder_left, files={"in/n": b"old\n"})
    killed_while_it_writes(program, report)


def put_files(folder, files):
    for name, content in files.items():
        (pathlib.Path(folder) / name).write_bytes(content)


def files_in(folder):
    return {path.name: path.read_bytes() for path in pathlib.Path(folder).iterdir() if path.is_file()}


def with_rescues(files, rescues):
    return files | {name + RESCUED: content for name, content in rescues.items()}


def confine():
    resource.setrlimit(resource.RLIMIT_AS, (MEMORY, MEMORY))


def without_memory(program, words, given, folder):
    """The status of a run whose history finds no memory, and what it wrote."""
    try:
        done = subprocess.run([program, *words], input=given, capture_output=True, cwd=folder, timeout=SECONDS, preexec_fn=confine)
    except subprocess.TimeoutExpired:
        return "timeout", b"", b""
    return done.returncode, done.stdout, done.stderr


def rescued(program, report):
    """Memory runs out in the midst of a session: each text that may differ from what was saved is rescued, and no other one."""
    with tempfile.TemporaryDirectory() as folder:
        put_files(folder, BEFORE)
        status, output, errors = without_memory(program, ["-ui", "json"], b"".join(map(keys_line, CHANGES)) + MANY, folder)
        report.check("rescue: status", (4, b""), (status, errors))
        report.check("rescue: what was written is whole drawings", True, output.startswith(OPENING) and output.endswith(b'"params":[false]}\n'))
        report.check("rescue: the files", with_rescues(AFTER, RESCUES), files_in(folder))
    with tempfile.TemporaryDirectory() as folder:
        status, _output, errors = without_memory(program, ["-ui", "json"], MANY, folder)
        report.check("rescue: nothing was typed", (4, b"", {}), (status, errors, files_in(folder)))


def replay_rescued(replayer, report):
    with tempfile.TemporaryDirectory() as folder:
        put_files(folder, BEFORE)
        lines = [b"%d " % (number % 2) + keys_line(keys) for number, keys in enumerate(CHANGES)]
        given = b"".join(lines) + b"".join(b"0 " + line for line in MANY.splitlines(True))
        status, output, errors = without_memory(replayer, ["silent", "silent"], given, folder)
        report.check("rescue: of a replay: status", (4, b"", b""), (status, output, errors))
        report.check("rescue: of a replay: the files", with_rescues(AFTER, RESCUES), files_in(folder))


def send_until_hung_up(client, given):
    """Sends what a server may take a part of, before it hangs up."""
    try:
        client.send(given)
    except (BrokenPipeError, ConnectionResetError):
        pass


def server_rescued(place, report):
    """The session of a server breaks: its clients are hung up on, and its texts are rescued."""
    server = place.serve(confine=lambda: resource.setrlimit(resource.RLIMIT_AS, (SERVER_MEMORY, SERVER_MEMORY)))
    first, second = server.clients(2)
    for number, keys in enumerate(CHANGES):
        (first, second)[number % 2].play(keys)
    settle([first, second])
    send_until_hung_up(first, MANY)
    while not first.has_ended:
        first.take()
    send_until_hung_up(second, keys_line("l"))
    second.rest()
    report.check("rescue: of a server: status", (5, b""), server.end())
    report.check("rescue: of a server: the files", with_rescues(AFTER, RESCUES), place.files())


def full_disk_rescue(program, report):
    """A text for which the disk has no room isn't rescued, and those behind it are all the same."""
    with tempfile.TemporaryDirectory() as folder:
        if subprocess.run(["mount", "-t", "tmpfs", "-o", "size=64k", "tmpfs", folder], capture_output=True).returncode != 0:
            report.not_run("rescue: a full disk", "no small disk can be mounted here")
            return
        try:
            put_files(folder, {"notes": b"old\n"})
            lines = ["i" + "a" * 200_000 + "<esc>", ":edit notes<ret>inew <esc>"]
            status, _output, errors = without_memory(program, ["-ui", "json"], b"".join(map(keys_line, lines)) + MANY, folder)
            report.check("rescue: a full disk: status", (4, b""), (status, errors))
            report.check("rescue: a full disk: the files", with_rescues({"notes": b"old\n"}, {"notes": b"new old\n"}), files_in(folder))
        finally:
            subprocess.run(["umount", folder], check=True)


def no_threads(place, report):
    """Where no thread can be had for a client it is hung up on, and that is the server's end."""
    os.chmod(place.folder, 0o777)

    def be_nobody():
        os.setgid(NOBODY)
        os.setuid(NOBODY)
        resource.setrlimit(resource.RLIMIT_NPROC, (1, 1))

    server = place.serve(confine=be_nobody)
    client = server.client()
    report.check_output("server: no thread: its client is sent nothing", b"", client.rest())
    report.check("server: no thread: status", (3, b""), server.end())
    report.check("server: no thread: nothing is left of it", [], place.names())


def signalled(place, report, number):
    """A server that a signal ends: its clients hear that, what was written is written, and the next server takes over."""
    server = place.serve("n")
    client = server.client()
    client.next()
    client.play("isaved <esc>:write<ret>")
    client.play("iunsaved <esc>")
    server.process.send_signal(number)
    report.check(f"server: {number.name}: status", (-number, b""), server.end())
    report.check_output(f"server: {number.name}: its client hears the end", b"", client.rest())
    report.check(f"server: {number.name}: what it leaves", {"n": b"saved old\n", "s.kak.lock": b""}, place.files())
    again = place.serve("n")
    other = again.client()
    report.check(f"server: {number.name}: another takes over", "saved old\n", last_drawing(other.next())[0].translate(str.maketrans("", "", "<>")))
    other.close()
    report.check(f"server: {number.name}: and ends", (0, b""), again.end())
    report.check(f"server: {number.name}: nothing else is left", {"n": b"saved old\n"}, place.files())


def no_folder_left(place, report):
    """The folder goes under a server: who is here goes on, no file can be written, and it ends as ever."""
    place.folder = place.folder / "in"
    server = place.serve("n")
    client = server.client()
    client.next()
    for path in place.folder.iterdir():
        path.unlink()
    place.folder.rmdir()
    report.check("server: its folder goes: its client goes on", "new <o>ld\n", last_drawing(client.play("inew <esc>"))[0])
    report.check("server: its folder goes: no file is written", "file fault: n", last_drawing(client.play(":write<ret>"))[2])
    client.close()
    report.check("server: its folder goes: the end", (0, b""), server.end())


def killed_while_it_writes(program, report):
    """A process that is killed while it writes leaves the whole old file, or the whole new one."""
    old, size = b"old line\n" * 200_000, 1_800_000
    new = b"x" + old
    kinds = set()
    for delay in [0.002 * count for count in range(1, 26)]:
        with tempfile.TemporaryDirectory() as folder:
            path = pathlib.Path(folder) / "file"
            path.write_bytes(old)
            talk = subprocess.Popen([program, "-ui", "json", "file"], cwd=folder, stdin=subprocess.PIPE, stdout=subprocess.DEVNULL, stderr=subprocess.DEVNULL)
            talk.stdin.write(keys_line("ix<esc>:write<ret>"))
            talk.stdin.flush()
            time.sleep(delay)
            talk.kill()
            talk.wait()
            talk.stdin.close()
            kinds.add({old: "old", new: "new"}.get(path.read_bytes(), "half"))
    report.check("killed while it writes: no file is half written", True, kinds <= {"old", "new"} and len(old) == size)
