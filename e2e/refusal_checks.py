"""Lines that are refused: each is answered by its one line, and changes nothing."""
from drawings import (
    CURSOR_ON_NEWLINE, DEFAULT, INVALID, METHOD, OPENING, PARAMS, PARSE, TOO_LONG, atom, drawing, key, keys_line,
)
from processes import EndedEarly, Talk, run_whole

LIMIT = 1_048_576
GOOD = b'{"jsonrpc":"2.0","method":"keys","params":["c<esc>"]}'


def keys(parameters):
    """A `keys` line with these bytes as its parameters."""
    return b'{"jsonrpc":"2.0","method":"keys","params":' + parameters + b"}"


def padded(line, size, byte=b" "):
    """A line that is filled up to so many bytes."""
    return line + byte * (size - len(line))


def nested(levels):
    """So many levels of brackets."""
    return b"[" * levels + b"]" * levels


def with_id(value):
    """A good line with one more member, which is passed over."""
    return b'{"id":' + value + b',"jsonrpc":"2.0","method":"keys","params":["c<esc>"]}'


TOO_LONG_LINES = {
    "1,048,577 bytes": b"x" * (LIMIT + 1),
    "a good line with spaces up to 1,048,577 bytes": padded(GOOD, LIMIT + 1),
    "1,048,577 spaces": b" " * (LIMIT + 1),
    "1,048,577 bytes that aren't UTF-8": b"\xff" * (LIMIT + 1),
    "3,000,000 bytes": b"[" * 3_000_000,
}

PARSE_LINES = {
    "128 levels of brackets": nested(128),
    "100,000 levels of brackets": nested(100_000),
    "128 levels of brackets that aren't closed": b"[" * 128,
    "127 levels inside of an object": with_id(nested(127)),
    "128 levels of objects": b'{"a":' * 127 + b"{}" + b"}" * 127,
    "a byte that is never UTF-8": b"\xff",
    "a byte that isn't UTF-8 in a key text": keys(b'["\xff"]'),
    "a byte that isn't UTF-8 in another member": with_id(b'"\x80"'),
    "a character of UTF-8 that is cut off": keys(b'["\xe2\x82"]'),
    "a character of UTF-8 that is too long": keys(b'["\xc0\xaf"]'),
    "a surrogate in UTF-8": keys(b'["\xed\xa0\x80"]'),
    "a character beyond the last one": keys(b'["\xf4\x90\x80\x80"]'),
    "a lone leading surrogate": keys(b'["\\ud800"]'),
    "a lone trailing surrogate": keys(b'["\\udc00"]'),
    "two leading surrogates": keys(b'["\\ud800\\ud800"]'),
    "a lone surrogate in another member": with_id(b'"\\udfff"'),
    "a control character in a string": keys(b'["a\x01"]'),
    "a raw tab in a string": keys(b'["a\tb"]'),
    "an escape that is none": keys(b'["\\x"]'),
    "a number beyond all floats": with_id(b"1e400"),
    "a number with a leading zero": with_id(b"01"),
    "a number without digits": with_id(b"-"),
    "a brace": b"{",
    "a string that isn't closed": b'"keys',
    "no value, but a word": b"keys",
    "two values": GOOD + b" " + GOOD,
    "a comma too many": keys(b'["c",]'),
    "single quotes": b"{'jsonrpc':'2.0'}",
    "a byte order mark": b"\xef\xbb\xbf" + GOOD,
    "a form feed": b"\x0c",
    "a null byte": b"\x00",
}

INVALID_LINES = {
    "127 levels of brackets": nested(127),
    "null": b"null",
    "a number": b"3",
    "a string": b'"keys"',
    "an array with a request": b"[" + GOOD + b"]",
    "an empty object": b"{}",
    "no version": b'{"method":"keys","params":["c"]}',
    "another version": b'{"jsonrpc":"1.0","method":"keys","params":["c"]}',
    "a longer version": b'{"jsonrpc":"2.0.0","method":"keys","params":["c"]}',
    "a version that is a number": b'{"jsonrpc":2.0,"method":"keys","params":["c"]}',
    "a version that is null": b'{"jsonrpc":null,"method":"keys","params":["c"]}',
    "another version later in the line": b'{"jsonrpc":"2.0","method":"keys","jsonrpc":"1.0"}',
    "no method": b'{"jsonrpc":"2.0","params":["c"]}',
    "a method that is null": b'{"jsonrpc":"2.0","method":null}',
    "a method that is an array": b'{"jsonrpc":"2.0","method":["keys"]}',
    "another version and an unknown method": b'{"jsonrpc":"1.0","method":"nope","params":3}',
}

METHOD_LINES = {
    "an unknown method": b'{"jsonrpc":"2.0","method":"nope","params":["c"]}',
    "a method in capitals": b'{"jsonrpc":"2.0","method":"Keys","params":["c"]}',
    "a method with a space": b'{"jsonrpc":"2.0","method":"keys ","params":["c"]}',
    "an empty method": b'{"jsonrpc":"2.0","method":"","params":["c"]}',
    "an unknown method with bad parameters": b'{"jsonrpc":"2.0","method":"nope","params":3}',
}

PARAMS_LINES = {
    "null as parameters": keys(b"null"),
    "a number as parameters": keys(b"3"),
    "a string as parameters": keys(b'"c"'),
    "true as parameters": keys(b"true"),
    "an object as parameters": keys(b'{"0":"c"}'),
    "a number among the parameters": keys(b'["c",3]'),
    "a fraction among the parameters": keys(b"[1.5]"),
    "a null among the parameters": keys(b'[null,"c"]'),
    "a false among the parameters": keys(b"[false]"),
    "an array among the parameters": keys(b'["c",["c"]]'),
    "an object among the parameters": keys(b"[{}]"),
    "a parameter that is no string, behind a bad key text": keys(b'["<nope>",3]'),
}

KEY_LINES = {
    "a bad key text in first place": (0, keys(b'["<nope>"]')),
    "a bad key text in second place": (1, keys(b'["ia","<nope>"]')),
    "bad key texts in second and third place": (1, keys(b'["ia","<","<nope>"]')),
    "a bad key text in twelfth place": (11, keys(b"[" + b'"a",' * 11 + b'"<>"]')),
    "a good key before a bad one in one text": (0, keys(b'["ia<nope>"]')),
    "a bracket that isn't closed": (0, keys(b'["a<esc"]')),
    "a bracket in brackets": (0, keys(b'["<<>"]')),
    "a modifier twice": (0, keys(b'["<c-c-x>"]')),
    "a modifier alone": (0, keys(b'["<c->"]')),
    "shift before a capital": (0, keys(b'["<s-A>"]')),
    "shift before a digit": (0, keys(b'["<s-1>"]')),
    "a name in capitals": (0, keys(b'["<ESC>"]')),
    "a function key too many": (0, keys(b'["<F13>"]')),
    "an escaped control character": (1, keys(b'["c","\\u0001"]')),
    "an escaped delete character": (0, keys(b'["\\u007f"]')),
}


def refused_lines():
    """All of them: name, line, refusal."""
    for refusal, lines in ((TOO_LONG, TOO_LONG_LINES), (PARSE, PARSE_LINES), (INVALID, INVALID_LINES),
                           (METHOD, METHOD_LINES), (PARAMS, PARAMS_LINES)):
        for name, line in lines.items():
            yield name, line, refusal
    for name, (number, line) in KEY_LINES.items():
        yield name, line, key(number)


# lines that are taken although they are near to one that is refused: name, line
TAKEN_LINES = {
    "a good line with spaces up to 1,048,576 bytes": padded(GOOD, LIMIT),
    "a good line with carriage returns up to 1,048,576 bytes": padded(GOOD, LIMIT, b"\r"),
    "126 levels inside of an object": with_id(nested(126)),
    "other members": b'{"id":7,"jsonrpc":"2.0","more":{"params":[3]},"method":"keys","params":["c<esc>"]}',
    "members in another order": b'{"params":["c<esc>"],"method":"keys","jsonrpc":"2.0"}',
    "a member twice, the last one good": b'{"jsonrpc":"2.0","method":"keys","params":["<nope>"],"params":["c<esc>"]}',
    "a number of many digits": with_id(b"123456789012345678901234567890"),
    "escaped letters": keys(b'["\\u0063","<\\u0065sc>"]'),
    "a pair of surrogates, which is a key without a row": keys(b'["c<esc>\\ud83d\\ude00"]'),
    "spaces round all": b' \t{ "jsonrpc" : "2.0" , "method" : "keys" , "params" : [ "c" , "<esc>" ] } \r',
}

# what a client is sent for two good lines
BEFORE = drawing([[atom("ab", DEFAULT), atom("\n", CURSOR_ON_NEWLINE)]], "*scratch* 1:3 insert 1/1 - client0", (0, 2))
BEHIND = drawing([[atom("abc", DEFAULT), atom("\n", CURSOR_ON_NEWLINE)]], "*scratch* 1:4 normal 1/1 - client0", (0, 3))
FIRST = keys_line("iab")
SECOND = GOOD + b"\n"


def run(program, report):
    def check(name, given, output):
        report.check_run(name, 0, output, run_whole(program, ["-ui", "json"], given))

    check("two good lines", FIRST + SECOND, OPENING + BEFORE + BEHIND)
    for name, line, refusal in refused_lines():
        check(f"refused: {name}", FIRST + line + b"\n" + SECOND, OPENING + BEFORE + refusal + BEHIND)
    for name, line in TAKEN_LINES.items():
        check(f"taken: {name}", FIRST + line + b"\n", OPENING + BEFORE + BEHIND)
    check("refused: 1,048,577 bytes without a newline at the end", FIRST + b"x" * (LIMIT + 1), OPENING + BEFORE + TOO_LONG)
    check("1,048,576 spaces ask for nothing", FIRST + b" " * LIMIT + b"\n" + SECOND, OPENING + BEFORE + BEHIND)
    everything = list(refused_lines())
    check("all refused lines in one session",
          FIRST + b"".join(line + b"\n" for _, line, _ in everything) + SECOND,
          OPENING + BEFORE + b"".join(refusal for _, _, refusal in everything) + BEHIND)
    cut = [line[:count] for line in (GOOD, with_id(b'[{"a":[1.5e3,null,true]}]')) for count in range(1, len(line))]
    check("requests that are cut behind each of their bytes", FIRST + b"".join(line + b"\n" for line in cut) + SECOND,
          OPENING + BEFORE + PARSE * len(cut) + BEHIND)
    answered_at_once(program, report)


def answered_at_once(program, report):
    """A refusal leaves before the next line is read."""
    talk = Talk([program, "-ui", "json"], "/")
    try:
        talk.drawing()
        for name, line in (("a bad key text", KEY_LINES["a bad key text in second place"][1]), ("a brace", b"{")):
            wanted = {"a bad key text": key(1), "a brace": PARSE}[name]
            talk.send(line + b"\n")
            report.check_output(f"refused at once: {name}", wanted, talk.line())
        report.check("refused at once: the end", (b"", 0), talk.rest())
    except EndedEarly:
        report.fail("a refusal leaves before the next line is read", "expected an answer in time", "the program ended, or none came")
    finally:
        talk.stop()
