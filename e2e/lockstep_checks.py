"""A client that sends one key and waits for its drawing before it sends the next one."""
import tempfile

from drawings import CURSOR_ON_NEWLINE, DEFAULT, OPENING, atom, drawing, keys_line
from lockstep import LETTERS_PER_LINE, typed_keys
from processes import EndedEarly, Talk

KEYS = 3000
ROWS = 24


def drawing_of(lines, top):
    """The drawing of lines that are being typed, with the cursor at the end of the last one."""
    cursor_line = len(lines) - 1
    drawn = [[atom(line + "\n", DEFAULT)] for line in lines[top:cursor_line]]
    typed = [atom(lines[-1], DEFAULT)] if lines[-1] else []
    drawn.append(typed + [atom("\n", CURSOR_ON_NEWLINE)])
    column = len(lines[-1])
    mode_line = f"*scratch* {cursor_line + 1}:{column + 1} insert 1/1 - client0"
    return drawing(drawn, mode_line, (cursor_line - top, column))


def run(program, report):
    """Each drawing is compared with the text that has been typed by then."""
    name = f"{KEYS} keys in lockstep, {LETTERS_PER_LINE} a line"
    lines, top = [""], 0
    with tempfile.TemporaryDirectory() as folder:
        talk = Talk([program, "-ui", "json"], folder)
        played = 0
        try:
            report.check_output(f"{name}: the first drawing", OPENING, talk.drawing())
            talk.send(keys_line("i"))
            report.check_output(f"{name}: insert mode", drawing_of(lines, top), talk.drawing())
            for key in typed_keys(KEYS):
                talk.send(keys_line(key))
                came = talk.drawing()
                played += 1
                if key == "<ret>":
                    lines.append("")
                else:
                    lines[-1] += key
                top = max(top, len(lines) - ROWS)
                wanted = drawing_of(lines, top)
                report.check_output(f"{name}: key {played}, {key}", wanted, came)
                if came != wanted:
                    break
            report.check(f"{name}: the end", (b"", 0), talk.rest())
        except EndedEarly:
            report.fail(name, f"expected {KEYS} drawings", f"after {played} the program ended, or none came in time")
        finally:
            talk.stop()
