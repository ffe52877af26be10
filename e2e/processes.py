"""Programs as processes: a whole input at once, or line by line over pipes."""
import os
import pathlib
import resource
import subprocess
import tempfile
import threading

# how long a program may take over a whole input, and over a conversation
SECONDS = 60


class Ended:
    """How a run ended: its status, its output, and what it wrote to standard error."""

    def __init__(self, status, output, errors):
        self.status = status
        self.output = output
        self.errors = errors


def run_whole(program, words, given, room=None):
    """Runs the program on an input, in an empty folder. A run that takes too long has the status `timeout`.

    The input is bytes, or a file that is read from its start. `room` is how many bytes of addresses the run may have.
    """
    source = {"input": given}
    if not isinstance(given, bytes):
        given.seek(0)
        source = {"stdin": given}
    confine = room and (lambda: resource.setrlimit(resource.RLIMIT_AS, (room, room)))
    with tempfile.TemporaryDirectory() as folder:
        try:
            done = subprocess.run(
                [program, *words], **source, capture_output=True, cwd=folder, timeout=SECONDS, preexec_fn=confine)
        except subprocess.TimeoutExpired as late:
            return Ended("timeout", late.stdout or b"", late.stderr or b"")
    return Ended(done.returncode, done.stdout, done.stderr)


def run_with_files(program, words, given, before):
    """Runs the program on an input, in a folder with these files: the run, and the files that the folder has then.

    Files are told by their paths, each with its bytes.
    """
    with tempfile.TemporaryDirectory() as folder:
        top = pathlib.Path(folder)
        for name, content in before.items():
            path = top / name
            path.parent.mkdir(parents=True, exist_ok=True)
            path.write_bytes(content)
        try:
            done = subprocess.run([program, *words], input=given, capture_output=True, cwd=folder, timeout=SECONDS)
            ended = Ended(done.returncode, done.stdout, done.stderr)
        except subprocess.TimeoutExpired as late:
            ended = Ended("timeout", late.stdout or b"", late.stderr or b"")
        return ended, {str(path.relative_to(top)): path.read_bytes() for path in top.rglob("*") if path.is_file()}


class EndedEarly(Exception):
    """The program ended, or was ended by the clock, before it answered."""


class Talk:
    """A program that is sent lines and whose answers are awaited, over pipes.

    It is killed when it has run for so many seconds; whoever then waits for an answer gets `EndedEarly`.
    """

    def __init__(self, command, folder, seconds=SECONDS, environment=None):
        self.process = subprocess.Popen(
            command, stdin=subprocess.PIPE, stdout=subprocess.PIPE, stderr=subprocess.DEVNULL, bufsize=0,
            cwd=folder, env=environment,
        )
        self.input = self.process.stdin.fileno()
        self.output = self.process.stdout.fileno()
        self.pending = b""
        self.clock = threading.Timer(seconds, self.process.kill)
        self.clock.daemon = True
        self.clock.start()

    def send(self, line):
        """Sends bytes, whole."""
        while line:
            try:
                line = line[os.write(self.input, line):]
            except BrokenPipeError:
                raise EndedEarly from None

    def read_more(self):
        more = os.read(self.output, 1 << 16)
        if not more:
            raise EndedEarly
        self.pending += more

    def taken(self, end):
        front, self.pending = self.pending[:end], self.pending[end:]
        return front

    def line(self):
        """The next line that the program writes."""
        while b"\n" not in self.pending:
            self.read_more()
        return self.taken(self.pending.index(b"\n") + 1)

    def refresh(self, since=b""):
        """What the program writes up to and with the first `refresh`, or the first behind the word `since`.

        A quote inside of a text that is drawn is escaped, so these words with their quotes are no text.
        """
        while True:
            begin = self.pending.find(since)
            refresh = self.pending.find(b'"refresh"', begin) if begin >= 0 else -1
            end = self.pending.find(b"\n", refresh) if refresh >= 0 else -1
            if end >= 0:
                return self.taken(end + 1)
            self.read_more()

    def drawing(self):
        """What the program writes up to and with the `refresh` that follows a `draw`."""
        return self.refresh(b'"draw"')

    def rest(self):
        """Ends the input, and gives the rest of the output and the status."""
        self.process.stdin.close()
        rest = self.pending + self.process.stdout.read()
        status = self.process.wait()
        self.clock.cancel()
        self.process.stdout.close()
        return rest, status

    def stop(self):
        """Ends the program however it stands."""
        self.clock.cancel()
        self.process.kill()
        self.process.wait()
        self.process.stdin.close()
        self.process.stdout.close()
