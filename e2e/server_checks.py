"""Clients of `kakd`, over its socket: one alone, two beside each other, and such as hang up or fall silent."""
import fcntl
import pathlib
import signal
import struct
import subprocess
import sys
import termios
import time

from connections import REFRESH, SECONDS, play, settle, text_of
from document_checks import protocol_pages, shown_lines
from drawings import CURSOR, CURSOR_ON_NEWLINE, DEFAULT, INVALID, METHOD, OPENING, PARAMS, PARSE, TOO_LONG, atom, drawing, key, keys_line, opening, resize_line
from edit_checks import last_drawing
from file_checks import TOPICS as WITH_FILES, files_of, sessions, words_of
from session_checks import HERE, TOPICS

QUIT = ":quit<ret>"

HI = [[atom("hi", DEFAULT), atom("\n", CURSOR_ON_NEWLINE)]]
HI_SEEN = [[atom("h", CURSOR), atom("i\n", DEFAULT)]]

# lines that are refused, and how
REFUSED = {
    "no JSON": (b"{\n", PARSE),
    "not UTF-8": (b"\xff\n", PARSE),
    "a zero byte": (b"\0\n", PARSE),
    "no object": (b"[]\n", INVALID),
    "another method": (keys_line("x").replace(b'"keys"', b'"mouse"'), METHOD),
    "no texts": (keys_line("x").replace(b'["x"]', b"[1]"), PARAMS),
    "no numbers": (keys_line("x").replace(b'"keys"', b'"resize"'), PARAMS),
    "no place": (keys_line("x").replace(b'"keys"', b'"mouse_move"'), PARAMS),
    "one number": (resize_line(10), PARAMS),
    "no whole number": (resize_line(10, 80.0), PARAMS),
    "no such key": (keys_line("ix", "<nope>"), key(1)),
    "too long": (b" " * 1_048_577 + b"\n", TOO_LONG),
}

# a client that types, says that it was drawn that, and stays
STAYING = """import socket, sys
link = socket.socket(socket.AF_UNIX)
link.connect("s.kak")
link.sendall(sys.argv[1].encode())
came = b""
while b"killed" not in came: came += link.recv(65536)
print("drawn", flush=True)
sys.stdin.read()"""

# what nobody reads is let go after so many seconds
PATIENCE = 10
# a text that fills a window
FULL = ("x" * 79 + "<ret>") * 24


def at(number, lines, place, cursor):
    return drawing(lines, f"*scratch* {place} normal 1/1 - client{number}", cursor)


def name_of(drawn):
    """The name of the client that is drawn this."""
    return last_drawing(drawn)[1].split()[-1]


def is_free(server, name):
    """Whether somebody who comes gets this name, now or soon."""
    end = time.monotonic() + SECONDS
    while time.monotonic() < end:
        client = server.client()
        drawn = client.next()
        client.close()
        if drawn and name_of(drawn) == name:
            return True
        time.sleep(0.05)
    return False


def run(program, report):
    for topic in TOPICS:
        alone(program, report, topic)
    for topic in WITH_FILES:
        alone_with_files(program, report, topic)
    for checks in (two_clients, names, refusals, pieces, sent_ahead, killed, came_and_went, halves, last_lines, deaf):
        play(program, report, checks)


def alone(program, report, topic):
    """A client that is alone is sent what one is over pipes."""
    for given in sorted((HERE / topic).glob("*.in")):
        play(program, report, session, f"server: {topic}: session {given.stem}", [], given)


def alone_with_files(program, report, topic):
    """So is one whose session has files, and it leaves the same files."""
    for given in sessions(topic):
        name = f"server: {topic}: session {given.stem}"
        words, before = words_of(given.with_suffix(".words"))[2:], files_of(given.with_suffix(".before"))
        play(program, report, session, name, words, given, files=before)


def session(place, report, name, words, given):
    """A recorded session, of a client that is alone."""
    server = place.serve(*words)
    client = server.client()
    client.send(given.read_bytes())
    report.check_output(name, given.with_suffix(".out").read_bytes(), client.finish())
    report.check(f"{name}: the end", (0, b""), server.end())
    after = given.with_suffix(".after")
    report.check(f"{name}: files", files_of(after) if after.exists() else {}, place.files())


def two_clients(place, report):
    """What one types the other is drawn, unasked."""
    server = place.serve()
    first = server.client()
    report.check_output("server: the first drawing", OPENING, first.next())
    report.check_output("server: what one types", at(0, HI, "1:3", (0, 2)), first.play("ihi<esc>"))
    second = server.client()
    report.check_output("server: a second client", opening(at(1, HI_SEEN, "1:1", (0, 0))), second.next())
    report.check_output("server: the first is drawn its coming", at(0, HI, "1:3", (0, 2)), first.next())
    report.check("server: drawings of others are nothing to be drawn", (True, True), (first.is_quiet(), second.is_quiet()))
    report.check("server: what the second types", ("!<h>i\n", "*scratch* 1:2 normal 1/1 - client1", ""), last_drawing(second.play("i!<esc>")))
    shown = b"".join(shown_lines(protocol_pages()[2]))
    report.check_output("server: the first is drawn that, unasked, as docs/PROTOCOL.md shows it", shown, first.until('"!hi"'))
    settle([first])
    report.check("server: and types", ("!hi?<\n>", "*scratch* 1:5 normal 1/1 - client0", ""), last_drawing(first.play("i?<esc>")))
    report.check("server: which the second is drawn", ("!<h>i?\n", "*scratch* 1:2 normal 1/1 - client1", ""), second.sees("!hi?\n"))
    settle([second])
    first.close()
    report.check("server: one hangs up, and what it typed stays", "!hi?\n", text_of(second.next()))
    second.send(keys_line(QUIT) + keys_line("ilater<esc>"))
    report.check("server: one quits, and a line behind that isn't played", "!hi?\n", text_of(second.rest()))
    report.check("server: all have left", (0, b""), server.end())


def names(place, report):
    """Whoever comes gets the least name that nobody here has; comings and goings are drawn to the others."""
    server = place.serve()
    clients = []
    for number in range(4):
        clients.append(server.client())
        report.check(f"server: client {number} comes", f"client{number}", name_of(clients[-1].next()))
        report.check(f"server: that client {number} came is drawn to the others", [4] * number, [len(each.next().splitlines()) for each in clients[:-1]])
    clients.pop(1).close()
    report.check("server: a going is drawn to the others", [4] * 3, [len(each.next().splitlines()) for each in clients])
    report.check("server: a name that is free again", "client1", name_of(server.client().next()))


def refusals(place, report):
    """A line is refused to its client alone, and nobody is drawn anything."""
    server = place.serve()
    first, second = server.clients(2)
    for name, (given, refusal) in REFUSED.items():
        first.send(given)
        report.check_output(f"server: {name}: the refusal", refusal, first.next())
    first.send(b"\n \t\r\n")
    report.check("server: nothing else comes for refused and blank lines", (True, True), (first.is_quiet(), second.is_quiet()))
    report.check("server: and nothing was typed", "<\n>", last_drawing(second.play("l"))[0])


def pieces(place, report):
    """A line may come in pieces."""
    client = place.serve().client()
    client.next()
    for byte in keys_line("ihi<esc>"):
        client.send(bytes([byte]))
    report.check_output("server: a line, byte by byte", at(0, HI, "1:3", (0, 2)), client.next())
    report.check("server: it is one line", True, client.is_quiet())


def sent_ahead(place, report):
    """Lines may be sent ahead; they are answered in their order."""
    client = place.serve().client()
    client.next()
    client.send(b"".join(keys_line(f"i{letter}<esc>") for letter in "abcdefghij" * 50))
    places = [last_drawing(client.next())[1].split()[1] for _ in range(500)]
    report.check("server: 500 lines, sent ahead", [f"1:{column}" for column in range(2, 502)], places)


def killed(place, report):
    """What a client did whose process is killed stays, and the others go on."""
    server = place.serve()
    other = server.client()
    other.next()
    child = subprocess.Popen(
        [sys.executable, "-c", STAYING, keys_line("ikilled<esc>").decode()], cwd=place.folder, stdin=subprocess.PIPE, stdout=subprocess.PIPE)
    report.check("server: one in a process of its own is drawn what it types", b"drawn\n", child.stdout.readline())
    report.check("server: and so is the other", "killed<\n>", other.sees("killed\n")[0])
    settle([other])
    child.send_signal(signal.SIGKILL)
    child.communicate()
    report.check("server: its process is killed, and what it typed stays", "killed\n", text_of(other.next()))
    report.check("server: and the other goes on", "!<k>illed\n", last_drawing(other.play("ggi!<esc>"))[0])
    report.check("server: its name is free", True, is_free(server, "client1"))


def mappings(process):
    """How many pieces of memory a process has."""
    return len(pathlib.Path(f"/proc/{process.pid}/maps").read_text().splitlines())


def came_and_went(place, report):
    """Clients that hang up as soon as they have come. Nothing that they had for themselves is kept."""
    server = place.serve()
    other = server.client()
    other.next()
    for _ in range(100):
        server.client().close()
    settle([other])
    other.send(keys_line("ihi<esc>"))
    report.check("server: a hundred who came and went", "hi<\n>", other.sees("hi\n")[0])
    report.check("server: nobody else is here", True, is_free(server, "client1"))
    before = mappings(server.process)
    for _ in range(300):
        client = server.client()
        client.next()
        client.close()
    report.check("server: who went has no memory any more", True, mappings(server.process) < before + 200)


def halves(place, report):
    """What has come of a line is kept while nothing more comes."""
    server = place.serve()
    half, other = server.clients(2)
    given = keys_line("ihalf<esc>")
    half.send(given[:20])
    report.check("server: half a line, and another one is served", "x<\n>", last_drawing(other.play("ix<esc>"))[0])
    report.check("server: whose change is drawn to both", "x<\n>", half.sees("x\n")[0])
    half.send(given[20:])
    report.check("server: the other half", "xhalf<\n>", half.sees("xhalf\n")[0])
    half.send(given[:20])
    settle([half, other])
    half.close()
    report.check("server: half a line, and hung up", "xhalf\n", text_of(other.next()))
    report.check("server: of which nothing is played", "!xhalf\n", text_of(other.play("ggi!<esc>")))


def last_lines(place, report):
    """Where a client says no more, what came last of it is a line."""
    server = place.serve()
    other = server.client()
    other.next()
    for name, said, answer in (("half a line", keys_line("ix<esc>")[:20], PARSE), ("a line without its newline", keys_line("ihi<esc>")[:-1], at(1, HI, "1:3", (0, 2)))):
        client = server.client()
        client.next()
        client.send(said)
        report.check_output(f"server: {name}, and the end", answer, client.finish())
    report.check("server: the other is drawn what that typed", "hi<\n>", other.sees("hi\n")[0])
    settle([other])
    client = server.clients(1)[0]
    settle([other])
    client.send(keys_line("iyo<esc>"))
    client.close()
    report.check("server: a line, and hung up", "yohi<\n>", other.sees("yohi\n")[0])


def unread(client):
    """How many bytes have come to a socket that weren't read."""
    return struct.unpack("i", fcntl.ioctl(client, termios.FIONREAD, bytes(4)))[0]


def longest_trip(client, count):
    """The longest time that one of some keys took."""
    longest = 0
    for _ in range(count):
        begun = time.monotonic()
        client.send(keys_line("gg"))
        client.until(" 1:1 normal ")
        longest = max(longest, time.monotonic() - begun)
    return longest


def deaf(place, report):
    """One that reads none of its drawings holds nobody up; it is let go when it has taken nothing for a while."""
    server = place.serve()
    silent, other = server.clients(2)
    other.play("i" + FULL + "<esc>")
    settle([silent, other])
    silent.send(keys_line("l") * 1500)
    longest, before, since = 0, -1, time.monotonic()
    while (now := unread(silent)) > before:
        before, since = now, time.monotonic()
        longest = max(longest, longest_trip(other, 50))
    report.check("server: others are served while one reads nothing", (True, True), (before > 0, longest < 2))
    settle([other])
    while other.is_quiet() and time.monotonic() < since + SECONDS:
        pass
    report.check("server: it is let go after ten seconds", (True, True), (len(other.next().splitlines()) == 4, PATIENCE - 2 < time.monotonic() - since < PATIENCE + 5))
    came = silent.rest()
    report.check("server: and was sent a beginning of its drawings", (True, True), (silent.has_ended, 0 < came.count(REFRESH) < 1500))
    report.check("server: its name is free then", True, is_free(server, "client0"))
