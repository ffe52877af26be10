"""The sessions of which one growth after another is refused, with each text that a buffer has in them.

A session is a row of lines. Each says what is sent, the texts through which it takes buffers, one for each single change, and which
buffers differ from what was saved behind it. So it is known what a run that was cut short may have rescued, and what it must have.
"""
from drawings import keys_line

SCRATCH = "*scratch*"


class Line:
    """A line of a session: what is sent, by which client, the texts through which it takes each buffer, in order, and the buffers
    that differ from what was saved behind it. Without these, they are those of the line before."""

    def __init__(self, keys, texts=None, modified=None, who=0):
        self.keys = keys
        self.texts = texts or {}
        self.modified = modified
        self.who = who


class Session:
    def __init__(self, name, program, words, lines, files=None, every=1, clients=1, shown=None):
        self.name = name
        self.program = program
        self.words = words
        self.lines = lines
        self.files = files or {}
        # of its growths each of this number is refused, unless all are asked for
        self.every = every
        self.clients = clients
        # of a server, what is drawn of a buffer once it differs from what was saved, which it does from then on
        self.shown = shown or {}

    def input(self):
        """What the program reads."""
        number = lambda line: b"%d " % line.who if self.program == "kakreplay" else b""
        return b"".join(number(line) + keys_line(line.keys) for line in self.lines)

    def standing(self):
        """Behind each number of lines that were played: each buffer's text, and the buffers that are modified then."""
        texts, modified, all_standing = {}, set(), [({}, set())]
        for line in self.lines:
            texts = {**texts, **{name: through[-1] for name, through in line.texts.items() if through}}
            modified = modified if line.modified is None else set(line.modified)
            all_standing.append((texts, modified))
        return all_standing

    def must_be_rescued(self, least, most):
        """The buffers that a run must have rescued which broke in one of these lines: those that differ from what was saved before each
        of them, and behind each."""
        return set.intersection(*(modified for _texts, modified in self.standing()[least:most + 2]))

    def may_be_rescued(self, least, most):
        """Each buffer's texts that such a run may have rescued: the one before the lines, and each behind a single change of them."""
        texts = {name: {text} for name, text in self.standing()[least][0].items()}
        for line in self.lines[least:most + 1]:
            for name, through in line.texts.items():
                texts.setdefault(name, set()).update(through)
        return texts


def typed(before, letters, behind, end=b"\n"):
    """The texts through which letters go in one by one."""
    return [before + letters[:count].encode() + behind + end for count in range(1, len(letters) + 1)]


def put_before(lines, count, mark):
    """A text of lines with a mark before some of them: those whose numbers are given."""
    return b"".join((mark if number in count else b"") + line for number, line in enumerate(lines))


def at_each(lines, mark):
    """The texts through which a mark goes before each of some lines, from the first to the last or the other way round."""
    whole = range(len(lines))
    forward = [put_before(lines, set(whole[:count]), mark) for count in range(1, len(lines))]
    back = [put_before(lines, set(whole[count:]), mark) for count in range(1, len(lines))]
    return forward + back + [put_before(lines, set(whole), mark)]


THREE = [b"x\n", b"y\n", b"z\n"]
DASHED = [b"-x\n", b"-y\n", b"-z\n"]


def letters():
    """Letters, a line below, and both taken back and made again."""
    return Session("letters", "kak", ["-ui", "json"], [
        Line("ia<esc>", {SCRATCH: typed(b"", "a", b"")}, {SCRATCH}),
        Line("obc<esc>", {SCRATCH: [b"a\n\n", b"a\nb\n", b"a\nbc\n"]}),
        Line("u", {SCRATCH: [b"a\nb\n", b"a\n\n", b"a\n"]}),
        Line("U", {SCRATCH: [b"a\n\n", b"a\nb\n", b"a\nbc\n"]}),
        Line("gg"),
        Line("2w"),
    ])


def cursors():
    """Three cursors, which type before each line; that taken back; and all of it gone."""
    return Session("cursors", "kak", ["-ui", "json"], [
        Line("ix<ret>y<ret>z<esc>", {SCRATCH: [b"x\n", b"x\n\n", b"x\ny\n", b"x\ny\n\n", b"x\ny\nz\n"]}, {SCRATCH}),
        Line("%<a-s>I-<esc>", {SCRATCH: at_each(THREE, b"-")}),
        Line("u", {SCRATCH: at_each(THREE, b"-") + [b"x\ny\nz\n"]}),
        Line("U", {SCRATCH: at_each(THREE, b"-")}),
        Line("%<a-s>y"),
        Line("%d", {SCRATCH: [b"\n"]}),
    ])


def files():
    """Two files, of which one has lines that end otherwise, and one is saved; and a buffer that is no file's."""
    return Session("files", "kak", ["-ui", "json"], [
        Line("in<esc>", {SCRATCH: typed(b"", "n", b"")}, {SCRATCH}),
        Line(":edit notes<ret>", {"notes": [b"old\r\n"]}),
        Line("inew <esc>", {"notes": typed(b"", "new ", b"old", b"\r\n")}, {SCRATCH, "notes"}),
        Line(":write<ret>", None, {SCRATCH}),
        Line("ione <esc>", {"notes": typed(b"new ", "one ", b"old", b"\r\n")}, {SCRATCH, "notes"}),
        Line(":edit other<ret>", {"other": [b"\n"]}),
        Line("ix<esc>", {"other": typed(b"", "x", b"")}, {SCRATCH, "notes", "other"}),
        Line(":write copy<ret>"),
        Line(":quit<ret>"),
    ], {"notes": b"old\r\n"})


def painted():
    """Highlighters, numbers before the lines, and faces of its own, over what is typed."""
    return Session("highlighters", "kak", ["-ui", "json"], [
        Line(":add-highlighter window/numbers number-lines<ret>"),
        Line(":add-highlighter global/a regex a+ 0:red,blue<ret>"),
        Line("iab<esc>", {SCRATCH: typed(b"", "ab", b"")}, {SCRATCH}),
        Line(":set-face global PrimaryCursor green<ret>"),
        Line("oaa<esc>", {SCRATCH: [b"ab\n\n", b"ab\na\n", b"ab\naa\n"]}),
    ])


def patterns():
    """A pattern that selects, and what is typed in place of what it found."""
    return Session("patterns", "kak", ["-ui", "json"], [
        Line("iab ab<esc>", {SCRATCH: typed(b"", "ab ab", b"")}, {SCRATCH}),
        Line("%sb<ret>"),
        Line("cX<esc>", {SCRATCH: [b"a ab\n", b"ab a\n", b"a a\n", b"aX a\n", b"a aX\n", b"aX aX\n"]}),
        Line("/a<ret>"),
    ])


def nested():
    """A macro, a key that stands for others, and a command that is tried, each of which types."""
    return Session("keys inside keys", "kak", ["-ui", "json"], [
        Line("Qia<esc>Q", {SCRATCH: typed(b"", "a", b"")}, {SCRATCH}),
        Line("2q", {SCRATCH: typed(b"a", "aa", b"")}),
        Line(":map global normal z ib<lt>esc><ret>z", {SCRATCH: typed(b"aaa", "b", b"")}),
        Line(":define-command -params 1 put 'exec \"i%arg{1}<lt>esc>\"; fail x'<ret>"),
        Line(":try 'put c' catch 'put d'<ret>", {SCRATCH: typed(b"aaab", "cd", b"")}),
        Line(":alias window p put<ret>:p e<ret>", {SCRATCH: typed(b"aaabcd", "e", b"")}),
    ])


def two_windows():
    """Two clients on one text, each of whom types, and one takes its own back."""
    return Session("two clients", "kakreplay", ["json", "json"], [
        Line("iab<esc>gg", {SCRATCH: typed(b"", "ab", b"")}, {SCRATCH}, who=0),
        Line("ggl", who=1),
        Line("ix", {SCRATCH: [b"xab\n"]}, who=0),
        Line("iy", {SCRATCH: [b"xayb\n"]}, who=1),
        Line("z", {SCRATCH: [b"xzayb\n"]}, who=0),
        Line("<esc>", who=1),
        Line("<esc>", who=0),
        Line("u", {SCRATCH: [b"xayb\n", b"zayb\n", b"ayb\n"]}, who=0),
    ], clients=2)


def served():
    """Two links to a server, each of which types into a text of its own. Which of two lines is played first nobody knows."""
    return Session("two links", "kakd", [], [
        Line("imark<esc>", {SCRATCH: typed(b"", "mark", b"")}, {SCRATCH}, who=0),
        Line(":edit other<ret>", {"other": [b"\n"]}, who=1),
        Line("iown<esc>", {"other": typed(b"", "own", b"")}, {SCRATCH, "other"}, who=1),
        Line("ob<esc>", {SCRATCH: [b"mark\n\n", b"mark\nb\n"]}, who=0),
        Line("gg", who=1),
        Line("ggl", who=0),
    ], clients=2, shown={SCRATCH: b'"mark', "other": b'"own'})


COUNT = 2000


def many_words():
    """A file of 2,000 lines, in each of which a word is replaced by letters that are typed at 2,000 cursors at once."""
    lines = [b"old %d\n" % number for number in range(1, COUNT + 1)]
    name = "notes.txt"

    def part_way(before, behind):
        return [b"".join(behind[:count] + before[count:]) for count in range(COUNT + 1)] + [b"".join(before[:count] + behind[count:]) for count in range(COUNT + 1)]

    texts, was = [], lines
    for word in (b"", b"n", b"ne", b"new"):
        now = [word + line[3:] for line in lines]
        texts += part_way(was, now)
        was = now
    return Session("2,000 cursors", "kakreplay", ["json", "json"], [
        Line(f":edit {name}<ret>", {name: [b"".join(lines)]}, who=0),
        Line(f":edit {name}<ret>", who=1),
        Line(r"%s\bold\b<ret>", who=0),
        Line("cnew", {name: texts}, {name}, who=0),
        Line("gei!<esc>", {name: [b"".join(was)[:-1] + b"!\n"]}, who=1),
        Line("<esc>", who=0),
        Line(":write<ret>", None, set(), who=0),
        Line(":quit<ret>", who=0),
        Line("i?<esc>", {name: [b"".join(was)[:-1] + b"?!\n", b"".join(was)[:-1] + b"!?\n"]}, {name}, who=1),
        Line(":quit!<ret>", who=1),
    ], {name: b"".join(lines)}, every=97, clients=2)


def nothing():
    return Session("no line", "kak", ["-ui", "json"], [])


def generated():
    return Session("generated", "kak", ["gen", "2", "40", "1"], [])


ALL = [nothing, letters, cursors, files, painted, patterns, nested, generated, two_windows, many_words, served]
