"""The words of the command, and what becomes of them."""
import re
import sys
import termios

from .keys import keys_of
from .requests import Requests
from .servers import Fault, OwnServer, SharedServer
from .window import converse

SESSION = re.compile(r"[A-Za-z0-9_-]{1,64}")


def read(words):
    """The session, if there is one, and the names of files, of which there is one at most; nothing where the words are others."""
    session = None
    if words[:1] == ["-s"]:
        session, words = "".join(words[1:2]), words[2:]
        if not SESSION.fullmatch(session):
            return None
    if len(words) > 1 or "" in words or words[:1] in (["-h"], ["--help"]):
        return None
    return session, words


def opening(files):
    """The keys that open files, as `kak` plays them for the file that its words name."""
    return [key for name in files for key in [*keys_of(":edit '" + name.replace("'", "''") + "'"), "<ret>"]]


def main(words, help_text):
    """Opens the window that the words ask for. The status: 0, or 1 after a fault, 2 where the words are others."""
    asked = read(words)
    if not asked:
        print(help_text.strip())
        return 2
    session, files = asked
    try:
        if not (sys.stdin.isatty() and sys.stdout.isatty()):
            raise Fault("this is no terminal")
        link = SharedServer(session) if session else OwnServer(files)
        try:
            has_hung_up, has_drawn = converse(link, opening(files) if session else [], Requests())
        finally:
            fault = link.close()
        if has_hung_up and (fault or not has_drawn):
            raise Fault(fault or "the server hung up before it drew anything; it may have as many clients as it serves")
    except (Fault, termios.error) as fault:
        print(f"terminal.py: {fault}", file=sys.stderr)
        return 1
    return 0
