"""A server as a process, and clients that are connected to its socket."""
import os
import pathlib
import re
import select
import socket
import subprocess
import tempfile
import time

from drawings import keys_line
from edit_checks import last_drawing
from processes import run_with_files

# how long a drawing may take, and the end of a server
SECONDS = 30
# how long nothing has to come before nothing is said to come
QUIET = 2.5
REFRESH = b'"method":"refresh"'


class Client:
    """A connection, of which whole drawings and refusals are taken one by one."""

    def __init__(self, path):
        self.socket = socket.socket(socket.AF_UNIX)
        self.socket.settimeout(SECONDS)
        self.socket.connect(str(path))
        self.came = b""
        self.has_ended = False

    def fileno(self):
        return self.socket.fileno()

    def send(self, given):
        self.socket.sendall(given)

    def take(self):
        """Takes what has come, or waits for it. Where the other side has ended, nothing comes any more."""
        try:
            more = self.socket.recv(1 << 16)
        except (ConnectionResetError, BrokenPipeError):
            more = b""
        self.has_ended = not more
        self.came += more

    def answer(self):
        """The next drawing, with the options before it if it is the first, or the next refusal, if a whole one has come."""
        end = 0
        while newline := self.came.find(b"\n", end) + 1:
            line, end = self.came[end:newline], newline
            if REFRESH in line or line.startswith(b'{"error"'):
                answer, self.came = self.came[:end], self.came[end:]
                return answer
        return None

    def next(self):
        """Waits for the next drawing or refusal; what is left, where the other side ends."""
        while (answer := self.answer()) is None:
            self.take()
            if self.has_ended:
                return self.answer() or self.rest()
        return answer

    def play(self, *keys):
        """What comes next behind a line."""
        self.send(keys_line(*keys))
        return self.next()

    def until(self, words):
        """The next drawing in which these words stand; nothing where none comes."""
        while (answer := self.next()) and words.encode() not in answer:
            pass
        return answer

    def sees(self, text):
        """Waits until it is drawn this text. The marked text, the mode line and the status of that drawing, or nothing where none comes."""
        while answer := self.next():
            if text_of(answer) == text:
                return last_drawing(answer)
        return None

    def rest(self):
        """All that comes up to the end."""
        while not self.has_ended:
            self.take()
        rest, self.came = self.came, b""
        return rest

    def finish(self):
        """Ends what this side says, and hears the other to its end."""
        self.socket.shutdown(socket.SHUT_WR)
        return self.rest()

    def is_quiet(self):
        """Whether nothing comes for a while."""
        return not self.came and not select.select([self], [], [], QUIET)[0]

    def close(self):
        self.socket.close()


def settle(clients):
    """Takes what comes for these clients until nothing comes for a while; the last drawing or refusal of each."""
    last = [None] * len(clients)
    while ready := select.select([client for client in clients if not client.has_ended], [], [], QUIET)[0]:
        for client in ready:
            client.take()
    for number, client in enumerate(clients):
        while answer := client.answer():
            last[number] = answer
    return last


class Server:
    """A server in a folder."""

    def __init__(self, program, folder, session, words, confine):
        self.path = pathlib.Path(folder) / f"{session}.kak"
        self.before = self.socket_number()
        self.process = subprocess.Popen(
            [program, "-s", session, *words], cwd=folder, stdin=subprocess.DEVNULL, stdout=subprocess.PIPE, stderr=subprocess.PIPE,
            preexec_fn=confine)

    def socket_number(self):
        """The number of the file that stands where its socket is to stand, if there is one."""
        return self.path.stat().st_ino if self.path.exists() else None

    def comes_up(self):
        """Whether it listens: its socket is put into its place when it does, in the place of a dead server's."""
        end = time.monotonic() + SECONDS
        while time.monotonic() < end and self.process.poll() is None:
            if self.socket_number() not in (None, self.before):
                return True
            time.sleep(0.002)
        return False

    def client(self):
        return Client(self.path)

    def clients(self, count):
        """So many clients, who come one after another and have been drawn all that."""
        clients = []
        for _ in range(count):
            clients.append(self.client())
            clients[-1].next()
        settle(clients)
        return clients

    def end(self):
        """The status, and what it printed."""
        try:
            output, errors = self.process.communicate(timeout=SECONDS)
            return self.process.returncode, output + errors
        except subprocess.TimeoutExpired:
            return "timeout", b""

    def stop(self):
        """Ends it however it stands."""
        if self.process.returncode is None:
            self.process.kill()
            self.process.communicate()


class Place:
    """A folder with files, and the servers that were started there."""

    def __init__(self, program, files):
        self.program = program
        self.held = tempfile.TemporaryDirectory()
        self.folder = pathlib.Path(self.held.name)
        self.servers = []
        for name, content in files.items():
            path = self.folder / name
            path.parent.mkdir(parents=True, exist_ok=True)
            path.write_bytes(content)

    def serve(self, *words, session="s", confine=None):
        """A server that has come up."""
        server = Server(self.program, self.folder, session, words, confine)
        self.servers.append(server)
        if not server.comes_up():
            raise OSError("no server came up")
        return server

    def ends(self, *words):
        """The status of a server that is to end by itself, and what it printed."""
        done = subprocess.run([self.program, *words], cwd=self.folder, stdin=subprocess.DEVNULL, capture_output=True, timeout=SECONDS)
        return done.returncode, done.stdout + done.stderr

    def files(self):
        """The files that are there, each with its bytes."""
        return {str(path.relative_to(self.folder)): path.read_bytes() for path in self.folder.rglob("*") if path.is_file()}

    def names(self):
        """The names of all that is there."""
        return sorted(os.listdir(self.folder))

    def __enter__(self):
        return self

    def __exit__(self, *_):
        for server in self.servers:
            server.stop()
        self.held.cleanup()


def text_of(drawn):
    """The text that a drawing shows, without the marks of selections."""
    return last_drawing(drawn)[0].translate(str.maketrans("", "", "<>"))


def single_keys(text):
    """The keys of a text, one by one."""
    return re.findall(r"<[^<>]+>|.", text, re.DOTALL)


class Lockstep:
    """Clients of one server, of whom all wait behind each key until each was drawn what it did.

    One of them struck it and is answered, the others are drawn unasked; so which drawings come, and in which order, is
    certain. The same drawings are had of a replay in which the others ask for theirs by lines without keys.
    """

    def __init__(self, server):
        self.server = server
        self.clients = []
        self.came = []
        self.lines = []

    def all_drawn(self, who):
        for number, client in enumerate(self.clients):
            if number != who:
                self.lines.append(b"%d " % number + keys_line())
            answer = client.next()
            if not answer.endswith(b"\n") or REFRESH not in answer:
                raise ValueError(f"client {number} was sent {answer[-200:]!r}")
            self.came[number] += answer

    def come(self, count=1):
        for _ in range(count):
            who = len(self.clients)
            self.clients.append(self.server.client())
            self.came.append(b"")
            self.lines.append(b"%d \n" % who)
            self.all_drawn(who)

    def strike(self, who, text):
        for key in single_keys(text):
            self.clients[who].send(keys_line(key))
            self.lines.append(b"%d " % who + keys_line(key))
            self.all_drawn(who)

    def replayed(self, replayer, files):
        """What a replay sends these clients, as one output."""
        return run_with_files(str(replayer), ["json"] * len(self.clients), b"".join(self.lines), files)[0].output


def play(program, report, checks, *more, name=None, files=None):
    """Plays checks in a folder of their own, to which no more servers belong when they have ended."""
    with Place(program, files or {}) as place:
        try:
            checks(place, report, *more)
        except (OSError, ValueError, LookupError, AttributeError) as fault:
            report.fail(f"server: {name or checks.__name__}", "expected a conversation to its end", f"came     {fault!r}")
