"""The bytes of drawings and refusals, written down here on their own, so that the program is compared with them."""
import json


def compact(value):
    """JSON in compact text, members in alphabetical order, non-ASCII characters as themselves."""
    return json.dumps(value, separators=(",", ":"), sort_keys=True, ensure_ascii=False)


# the attributes, in the order in which a face has them
ATTRIBUTES = ("underline", "reverse", "bold", "blink", "dim", "italic", "final_fg", "final_bg", "final_attr")


def face(foreground="default", background="default", *attributes, underline="default"):
    """A face with these colours and attributes, which may be told in any order."""
    unknown = set(attributes) - set(ATTRIBUTES)
    if unknown:
        raise ValueError(f"no attributes: {unknown}")
    return {"attributes": [it for it in ATTRIBUTES if it in attributes], "bg": background, "fg": foreground, "underline": underline}


DEFAULT = face()
PADDING = face("blue")
STATUS_LINE = face("cyan")
STATUS_CURSOR = face("black", "cyan")
PROMPT = face("yellow")
ERROR = face("black", "red")
CURSOR = face("black", "white")
CURSOR_ON_NEWLINE = face("black", "cyan")
INFORMATION = face("black", "yellow")
LINE_NUMBERS = DEFAULT
LINE_NUMBER_CURSOR = face("default", "default", "reverse")
WHITESPACE = face("default", "default", "dim")


def atom(contents, of):
    return {"contents": contents, "face": of}


def request(method, *parameters):
    """One line of a drawing."""
    return (compact({"jsonrpc": "2.0", "method": method, "params": list(parameters)}) + "\n").encode()


def shown_box(title, content, of=INFORMATION):
    """The line that shows a box: its title and its text, whose lines are those between newlines."""
    line = lambda text: [atom(text, of)] if text else []
    return request("info_show", line(title), [line(text) for text in content.split("\n")], {"column": 0, "line": 0}, of, "prompt")


def drawing(lines, mode_line, cursor, status=(), where="buffer", box=b""):
    """The lines of a drawing: lines of atoms, the mode line's text, the cursor's line and column, the status, and what becomes of
    the box, where that is told."""
    line, column = cursor
    return b"".join([
        request("draw", [list(atoms) for atoms in lines], DEFAULT, PADDING),
        request("draw_status", list(status), [atom(mode_line, STATUS_LINE)], STATUS_LINE),
        request("set_cursor", where, {"line": line, "column": column}),
        box,
        request("refresh", False),
    ])


def opening(first):
    """What a client is sent first: the options, and this drawing."""
    return request("set_ui_options", {}) + first


HIDDEN_BOX = request("info_hide")

# what a client is sent first without a file: the drawing of a text of one newline
OPENING = opening(drawing([[atom("\n", CURSOR_ON_NEWLINE)]], "*scratch* 1:1 normal 1/1 - client0", (0, 0)))


def refusal(code, message):
    return (compact({"error": {"code": code, "message": message}, "id": None, "jsonrpc": "2.0"}) + "\n").encode()


TOO_LONG = refusal(-32600, "TooLong")
PARSE = refusal(-32700, "Parse")
INVALID = refusal(-32600, "Invalid")
METHOD = refusal(-32601, "Method")
PARAMS = refusal(-32602, "Params")


def key(number):
    return refusal(-32602, f"Key {number}")


def keys_line(*texts):
    """The line that plays these key texts."""
    return (compact({"jsonrpc": "2.0", "method": "keys", "params": list(texts)}) + "\n").encode()


def resize_line(*numbers):
    """The line that asks for so many rows and columns."""
    return (compact({"jsonrpc": "2.0", "method": "resize", "params": list(numbers)}) + "\n").encode()
