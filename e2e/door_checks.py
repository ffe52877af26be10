"""How `kakd` is started and how it ends: its words, its socket, and what it leaves to others."""
import os
import resource
import signal
import socket
import stat
import time

from connections import SECONDS, Server, play, settle, text_of
from drawings import OPENING, keys_line
from edit_checks import last_drawing
from processes import run_with_files

WRONG_WORDS = [
    [], ["-s"], ["s"], ["s", "-s"], ["-s=s"], ["-s s"], ["-S", "s"], ["--help"], ["-ui", "json"], ["-s", "s", "a", "b"], ["a", "-s", "s"],
    ["-s", ""], ["-s", "a.b"], ["-s", "a/b"], ["-s", ".."], ["-s", "a b"], ["-s", "a\n"], ["-s", "a" * 65], ["-s", "é"],
    ["-s", "s", ""], ["-s", "s", "a\nb"], ["-s", "s", "a\x7f"], ["-s", "s", "\u0085"], ["-s", "s", "a" * 256],
    ["-s", b"\xff"], ["-s", "s", b"\xff"], [b"-s\xff", "s"],
]

# a session's name of all kinds of characters that it may have, and as many
LONG_NAME = "Az_09-" + "z" * 58
QUIT = ":quit<ret>"
# so many servers are started at once
STARTS = 8
# so many descriptors are too few for so many clients
DESCRIPTORS = 12


def run(program, report):
    for given in WRONG_WORDS:
        ended, there = run_with_files(program, given, b"", {})
        report.check(f"server: the words {given}", (1, b"", b"", {}), (ended.status, ended.output, ended.errors, there))
    for checks in (ends, takes_over, leaves_alone, half_made, many_starts, no_folder, two_sessions, no_descriptors):
        play(program, report, checks)
    play(program, report, file_word, files={"n": b"a\n"})
    play(program, report, no_file_word)


def ends(place, report):
    """It ends with its last client, and takes its socket away, to which nobody but its owner may connect."""
    server = place.serve()
    report.check("server: the mode of its socket", 0o600, stat.S_IMODE(os.stat(server.path).st_mode))
    time.sleep(0.2)
    report.check("server: it waits for its first client", None, server.process.poll())
    first, second = server.clients(2)
    first.play(QUIT)
    report.check_output("server: nothing comes behind quit", b"", first.rest())
    report.check("server: one is here still", (4, None), (len(second.next().splitlines()), server.process.poll()))
    second.close()
    report.check("server: the last one hung up", (0, b""), server.end())
    report.check("server: nothing is left of it", [], place.names())


def takes_over(place, report):
    """What a living and a dead server leave to others."""
    server = place.serve()
    first = server.client()
    first.next()
    report.check("server: a second one of that name", (7, b""), place.ends("-s", "s"))
    report.check("server: leaves the first alone", (True, 4), (first.is_quiet(), len(first.play("l").splitlines())))
    server.process.send_signal(signal.SIGKILL)
    server.end()
    report.check_output("server: it is killed, and its clients hear it", b"", first.rest())
    report.check("server: a dead one leaves its socket", True, server.path.exists())
    again = place.serve()
    client = again.client()
    report.check_output("server: one takes over from a dead one", OPENING, client.next())
    client.play(QUIT)
    report.check("server: and ends", (0, b""), again.end())
    report.check("server: nothing is left of both", [], place.names())


def leaves_alone(place, report):
    """What isn't a server's is left alone."""
    path, lock = place.folder / "s.kak", place.folder / "s.kak.lock"
    path.write_bytes(b"a script\n")
    report.check("server: a file stands there", (7, b""), place.ends("-s", "s"))
    report.check("server: which is left alone", {"s.kak": b"a script\n"}, place.files())
    path.unlink()
    with socket.socket(socket.AF_UNIX) as foreign:
        foreign.bind(str(path))
        foreign.listen()
        report.check("server: a socket to which another program listens", (7, b""), place.ends("-s", "s"))
        report.check("server: which is left there", ["s.kak"], place.names())
    path.unlink()
    lock.write_bytes(b"text\n")
    report.check("server: a file of its lock's name that holds something", (7, b""), place.ends("-s", "s"))
    report.check("server: which is left alone too", {"s.kak.lock": b"text\n"}, place.files())
    lock.unlink()
    (place.folder / "s.kak.new").mkdir()
    (place.folder / "s.kak.new" / "text").write_bytes(b"text\n")
    report.check("server: a folder where its socket is made", (7, b""), place.ends("-s", "s"))
    report.check("server: is left alone as well", {"s.kak.new/text": b"text\n"}, place.files())


def half_made(place, report):
    """What one left that was killed while it made its socket is in nobody's way."""
    folder = place.folder / "s.kak.new"
    folder.mkdir()
    with socket.socket(socket.AF_UNIX) as dead:
        dead.bind(str(folder / "socket"))
    (place.folder / "s.kak.lock").touch()
    server = place.serve()
    report.check("server: a socket that is half made is cleared away", ["s.kak", "s.kak.lock"], place.names())
    server.client().close()
    report.check("server: half made: the end", (0, b""), server.end())
    report.check("server: half made: nothing is left of it", [], place.names())


def many_starts(place, report):
    """Of servers that are started at once one serves, and the others end."""
    servers = [Server(place.program, place.folder, "s", [], None) for _ in range(STARTS)]
    place.servers += servers
    end = time.monotonic() + SECONDS
    while (sum(each.process.poll() is None for each in servers) > 1 or not servers[0].path.exists()) and time.monotonic() < end:
        time.sleep(0.01)
    ended = [each.process.poll() for each in servers]
    report.check("server: many at once: all but one end", [7] * (STARTS - 1), [status for status in ended if status is not None])
    client = servers[0].client()
    report.check_output("server: many at once: one serves", OPENING, client.next())
    client.close()
    report.check("server: many at once: and ends", {(0, b""), (7, b"")}, {each.end() for each in servers})
    report.check("server: many at once: nothing is left of them", [], place.names())


def no_folder(place, report):
    place.folder = "/proc"
    report.check("server: a folder in which nothing can be made", (7, b""), place.ends("-s", "s"))


def two_sessions(place, report):
    """Two sessions in one folder know nothing of each other."""
    server, other = place.serve(), place.serve(session=LONG_NAME)
    first, second = server.client(), other.client()
    report.check_output("server: one session", OPENING, first.next())
    report.check_output("server: another one in the folder", OPENING, second.next())
    second.play("ihi<esc>" + QUIT)
    report.check("server: what is done there is none of the first's affair", (0, b"", True), (*other.end(), first.is_quiet()))
    report.check("server: nor is its end", ["s.kak", "s.kak.lock"], place.names())


def no_descriptors(place, report):
    """Where no further link can be received, those who are here go on up to their end, which the status then tells."""
    server = place.serve(confine=lambda: resource.setrlimit(resource.RLIMIT_NOFILE, (DESCRIPTORS, DESCRIPTORS)))
    clients = server.clients(1)
    clients += [server.client() for _ in range(DESCRIPTORS)]
    drawn = settle(clients)
    report.check("server: no descriptors: who came too late is drawn nothing", None, drawn[-1])
    report.check("server: no descriptors: the first goes on", "hi\n", text_of(clients[0].play("ihi<esc>")))
    for client in clients:
        client.close()
    report.check("server: no descriptors: status", (2, b""), server.end())
    report.check("server: no descriptors: nothing is left of it", [], place.names())


def file_word(place, report):
    """The first client opens the file that the words name, and only that one."""
    server = place.serve("n")
    first = server.client()
    report.check("server: the first client opens the file", ("<a>\n", "n 1:1 normal 1/1 - client0", ""), last_drawing(first.next()))
    second = server.client()
    report.check("server: the second doesn't", ("<\n>", "*scratch* 1:1 normal 1/1 - client1", ""), last_drawing(second.next()))
    settle([first])
    report.check("server: the first changes it, and may go", "b<a>\n", last_drawing(first.play("ib<esc>" + QUIT))[0])
    settle([second])
    report.check("server: the last may not", ("<\n>", "*scratch* 1:1 normal 1/1 - client1", "modified buffers remain: n"), last_drawing(second.play(QUIT)))
    second.send(keys_line(":buffer n<ret>:write-quit<ret>"))
    second.rest()
    report.check("server: a session with a file ends", (0, b""), server.end())
    report.check("server: the file was written", {"n": b"ba\n"}, place.files())


def no_file_word(place, report):
    """A file that isn't there is a new buffer, and what can't be opened or read is told; a named pipe holds nobody up."""
    (place.folder / "folder").mkdir()
    (place.folder / "circle").symlink_to("circle")
    os.mkfifo(place.folder / "pipe")
    rows = [("new", ("<\n>", "new 1:1 normal 1/1 - client0", ""))]
    rows += [(word, ("<\n>", "*scratch* 1:1 normal 1/1 - client0", f"file fault: {word}")) for word in ("folder", "circle", "pipe")]
    for word, told in rows:
        server = place.serve(word)
        client = server.client()
        report.check(f"server: the file {word}", told, last_drawing(client.next()))
        client.close()
        report.check(f"server: the file {word}: the end", (0, b""), server.end())
