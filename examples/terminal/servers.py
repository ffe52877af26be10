"""Servers: their programs, and the connection to one."""
import fcntl
import os
import pathlib
import shutil
import socket
import subprocess
import time

TOP = pathlib.Path(__file__).resolve().parent.parent.parent
# how long a server may take to be there, and to end, in seconds
PATIENCE = 20
# how long a server may take to listen when another one found its session taken
GRACE = 1


class Fault(Exception):
    """What went wrong, for whoever started this program."""


def program(name):
    """The program of that name: the one that is named in the environment, or that ./run built, or one with a longer name on the PATH."""
    built = TOP / "crates" / name / "out" / name
    if named := os.environ.get(name.upper()) or (str(built) if built.is_file() else shutil.which(f"toulvazin-{name}")):
        return named
    raise Fault(f"there is no {name} yet: `{TOP / 'run'} {name}` builds it")


def started(words, **more):
    try:
        return subprocess.Popen(words, stderr=subprocess.DEVNULL, start_new_session=True, **more)
    except OSError as fault:
        raise Fault(f"{words[0]}: {fault.strerror}") from fault


class Link:
    """A connection to a server. Nothing here waits for the other side."""

    def __init__(self, connection):
        self.connection = connection
        connection.setblocking(False)
        self.unsent = b""
        self.came = b""

    def fileno(self):
        return self.connection.fileno()

    def send(self, given):
        self.unsent += given
        self.send_more()

    def send_more(self):
        """Sends what can be sent at once. Where the other side has hung up that is told by what comes."""
        try:
            while self.unsent:
                self.unsent = self.unsent[self.connection.send(self.unsent):]
        except BlockingIOError:
            pass
        except OSError:
            self.unsent = b""

    def lines(self):
        """The lines that have come whole since; nothing where the other side has hung up."""
        try:
            more = self.connection.recv(1 << 20)
        except BlockingIOError:
            return []
        except OSError:
            more = b""
        if not more:
            return None
        *lines, self.came = (self.came + more).split(b"\n")
        return lines

    def close(self):
        """Hangs up. What went wrong with the server, if anything did."""
        self.connection.close()


class OwnServer(Link):
    """A server for this window alone: `kak -ui json`, at one end of a pair of sockets."""

    def __init__(self, words):
        ours, theirs = socket.socketpair()
        with theirs:
            self.process = started([program("kak"), "-ui", "json", *words], stdin=theirs, stdout=theirs)
        super().__init__(ours)

    def close(self):
        super().close()
        try:
            status = self.process.wait(PATIENCE)
        except subprocess.TimeoutExpired:
            self.process.kill()
            self.process.wait()
            return "kak didn't end, and was killed"
        if status < 0:
            return f"kak was killed by signal {-status}: what wasn't written is lost"
        return f"kak ended with status {status}" if status else ""


class SharedServer(Link):
    """A window on a session, whose server is started where none is there."""

    def __init__(self, session):
        self.path = f"{session}.kak"
        super().__init__(connected(self.path) or self.begun(session))

    def begun(self, session):
        """The connection to a server that is started for it. If another one is faster, it is that one's."""
        process = started([program("kakd"), "-s", session], stdin=subprocess.DEVNULL, stdout=subprocess.DEVNULL)
        end, has_ended = time.monotonic() + PATIENCE, False
        while not (connection := connected(self.path)):
            if time.monotonic() > end:
                process.kill()
                raise Fault(f"kakd ended with status {process.returncode}" if has_ended else f"{self.path}: no server came up")
            if not has_ended and process.poll() is not None:
                # the faster one may not listen yet
                has_ended, end = True, time.monotonic() + GRACE
            time.sleep(0.01)
        return connection

    def close(self):
        super().close()
        return f"{self.path}: the server was killed: what wasn't written is lost" if self.is_killed() else ""

    def is_killed(self):
        """Whether the server is gone without having taken its socket away: then nobody holds the lock beside it."""
        try:
            with open(f"{self.path}.lock", "rb") as lock:
                fcntl.flock(lock, fcntl.LOCK_SH | fcntl.LOCK_NB)
                return os.path.exists(self.path)
        except OSError:
            return False


def connected(path):
    """A connection to the socket there; nothing where nobody listens to it."""
    connection = socket.socket(socket.AF_UNIX)
    try:
        connection.connect(path)
        return connection
    except (FileNotFoundError, ConnectionRefusedError):
        connection.close()
        return None
    except OSError as fault:
        connection.close()
        raise Fault(f"{path}: {fault.strerror}") from fault
