"""What a front end asks of a server, as lines."""
import json

# The methods that are sent, which `kak` and `kakd` play (docs/PROTOCOL.md); a server may refuse any but `keys` with `Method`.
PLAYED = ("keys", "resize", "scroll", "mouse_move", "mouse_press", "mouse_release")
# the size of a window until a `resize`
ROWS, COLUMNS = 24, 80
# the code by which a server refuses a method that it doesn't play
METHOD = -32601
# the most keys of one line
SHARE = 4096


class Requests:
    """The requests that a server plays, as lines of bytes; one that it doesn't play is no bytes."""

    def __init__(self, played=PLAYED):
        self.played = set(played)

    def line(self, method, *parameters):
        if method not in self.played:
            return b""
        return json.dumps({"jsonrpc": "2.0", "method": method, "params": parameters}).encode() + b"\n"

    def keys(self, keys):
        """Keys in their order, in as many lines as they need."""
        shares = [keys[begin:begin + SHARE] for begin in range(0, len(keys), SHARE)]
        return b"".join(self.line("keys", "".join(share)) for share in shares)

    def plays_mouse(self):
        return "mouse_press" in self.played

    def refused(self, code):
        """Whether it was a method that was refused: then nothing but keys is sent from now on."""
        if code == METHOD:
            self.played &= {"keys"}
        return code == METHOD
