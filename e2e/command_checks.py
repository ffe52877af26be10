"""Commands: what their drawings then say, what they write, and how they end, in the rows and with the marks of the checks of edits."""
import pathlib
import subprocess
import tempfile

from drawings import ERROR, STATUS_LINE, atom, keys_line, request
from edit_checks import last_drawing
from processes import SECONDS

COUNT = "wrong argument count"
VALUE = "bad value"
UNDONE = "modified buffers remain: "
START = "<\n>"
ONE = "1:1 normal 1/1"

# a text that is typed; what is typed then; the status
STATUSES = {
    # words
    "no words": ("", ":<ret>", ""),
    "words with spaces between": ("", ":echo a  b<ret>", "a b"),
    "quoted and in brackets": ("", ":echo 'it''s' %{a{b}c} \"x\"\"y\"<ret>", "it's a{b}c x\"y"),
    "a bracket that isn't closed": ("", ":echo %{a<ret>", "unclosed at 5"),
    "a mark that isn't closed": ("", ":echo %abc,def<ret>", "unclosed at 5"),
    "all is read before the first is run": ("", ":echo a; echo 'b<ret>", "unclosed at 13"),
    "two commands": ("", ":echo a; echo b<ret>", "b"),
    "a comment": ("", ":# echo a<ret>", ""),
    "no comment inside of a command": ("", ":echo a # b<ret>", "a # b"),
    "spaces at both ends": ("", ": echo a <ret>", "a"),
    "an unknown command": ("", ":x y<ret>", "no such command: x"),
    "of two words in one": ("", ":'a b' c<ret>", "no such command: a b"),
    "an expansion waits for its command's turn": ("", ":reg a x; echo %reg{a}<ret>", "x"),
    "and takes what stands then": ("", ":decl int x 3; echo %opt{x}; set global x 4; echo %opt{x}<ret>", "4"),
    "an error ends the commands": ("", ":x; reg a b<ret>:echo c %reg{a}<ret>", "c"),
    "and is told whatever was echoed": ("", ":echo a; x<ret>", "no such command: x"),
    "the register of commands": ("", ":echo %reg{colon}<ret>", "echo %reg{colon}"),
    # numbers of words and switches
    "echo of nothing": ("", ":echo<ret>", ""),
    "an unknown switch": ("", ":echo -n x<ret>", "unknown switch: -n"),
    "a dash alone": ("", ":echo - x<ret>", "unknown switch: -"),
    "a quoted switch": ("", ":echo '-n'<ret>", "unknown switch: -n"),
    "no switch behind a word": ("", ":echo x -n<ret>", "x -n"),
    "the end of switches": ("", ":echo -- -n<ret>", "-n"),
    "the switch is told before the count": ("", ":quit -x y<ret>", "unknown switch: -x"),
    "nop": ("", ":nop<ret>", ""),
    "nop takes no word": ("", ":nop x<ret>", COUNT),
    "quit takes none": ("", ":q x<ret>", COUNT),
    "nor does quit!": ("", ":q! x<ret>", COUNT),
    "nor write-quit": ("", ":wq x<ret>", COUNT),
    "edit takes one": ("", ":edit<ret>", COUNT),
    "and no more": ("", ":e a b<ret>", COUNT),
    "buffer takes one": ("", ":b<ret>", COUNT),
    "write takes one at most": ("", ":w a b<ret>", COUNT),
    "so does delete-buffer": ("", ":db a b<ret>", COUNT),
    "so does fail": ("", ":fail a b<ret>", COUNT),
    "fail": ("", ":fail 'a b'<ret>", "a b"),
    "fail with no text": ("", ":echo a; fail<ret>", ""),
    "a register's name is needed": ("", ":reg<ret>", COUNT),
    "a switch lacks its word": ("", ":decl -docstring<ret>", COUNT),
    "a type and a name are needed": ("", ":decl int<ret>", COUNT),
    "a scope and a name are needed": ("", ":set global<ret>", COUNT),
    "unset takes two": ("", ":unset-option global tabstop x<ret>", COUNT),
    # options
    "the given ones": ("", ":echo %opt{tabstop} %opt{indentwidth} %opt{eolformat} %opt{BOM} x%opt{filetype}<ret>", "8 4 lf none x%opt{filetype}"),
    "an empty text is a word": ("", ":echo a \"%opt{filetype}\" b<ret>", "a  b"),
    "one that is declared": ("", ":declare-option int x 3<ret>:echo %opt{x}<ret>", "3"),
    "one of another type exists": ("", ":decl int x 3<ret>:declare-option bool x<ret>", "option exists: x"),
    "one of this type keeps its value": ("", ":decl int x 3<ret>:decl int x 4<ret>:echo %opt{x}<ret>", "3"),
    "a number without a value": ("", ":decl int x<ret>:echo %opt{x}<ret>", "0"),
    "a truth without a value": ("", ":decl bool x<ret>:echo %opt{x}<ret>", "false"),
    "a list without a value": ("", ":decl str-list x<ret>:echo a %opt{x} b<ret>", "a b"),
    "with switches": ("", ":decl -hidden -docstring 'a b' str x c<ret>:echo %opt{x}<ret>", "c"),
    "of no type": ("", ":decl float x<ret>", VALUE),
    "of a value of another type": ("", ":decl int x y<ret>", VALUE),
    "none to be set": ("", ":set nowhere x 3<ret>", "no such option: x"),
    "none to be unset": ("", ":unset-option window y<ret>", "no such option: y"),
    "no scope": ("", ":set nowhere tabstop nine<ret>", "no such scope: nowhere"),
    "the global value stays": ("", ":unset-option global tabstop<ret>", "no such scope: global"),
    "no number": ("", ":set-option buffer tabstop nine<ret>", VALUE),
    "too wide": ("", ":set global tabstop 65<ret>", VALUE),
    "as wide as may be": ("", ":set global tabstop 64<ret>:echo %opt{tabstop}<ret>", "64"),
    "no value": ("", ":set global tabstop<ret>", VALUE),
    "two values": ("", ":set global tabstop 1 2<ret>", VALUE),
    "another form of lines": ("", ":set global eolformat mac<ret>", VALUE),
    "the window's counts": ("", ":set window tabstop 2<ret>:set buffer tabstop 4<ret>:echo %opt{tabstop}<ret>", "2"),
    "then the buffer's": ("", ":set buffer tabstop 4<ret>:set global tabstop 3<ret>:echo %opt{tabstop}<ret>", "4"),
    "and again the global one": ("", ":set buffer tabstop 4<ret>:unset buffer tabstop<ret>:echo %opt{tabstop}<ret>", "8"),
    "a sum": ("", ":set -add buffer tabstop 2<ret>:echo %opt{tabstop}<ret>", "10"),
    "a sum below": ("", ":set -add global tabstop -3<ret>:echo %opt{tabstop}<ret>", "5"),
    "a sum out of range": ("", ":decl int x 2147483647<ret>:set -add global x 1<ret>", VALUE),
    "a text behind another": ("", ":decl str x a<ret>:set -add global x b<ret>:echo %opt{x}<ret>", "ab"),
    "a list behind another": ("", ":decl str-list x a<ret>:set -add global x b c<ret>:echo %opt{x}<ret>", "a b c"),
    "no truth is added": ("", ":decl bool x<ret>:set -add global x true<ret>", VALUE),
    # registers
    "a register": ("", ":set-register a x y<ret>:echo %reg{a}<ret>", "x y"),
    "a register by its long name": ("", ":reg slash x<ret>:echo %reg{/} %reg{slash}<ret>", "x x"),
    "no such register": ("", ":reg ab x<ret>", "no such register: ab"),
    "one that is only read": ("a b", ":set-register % x<ret>", "register is read only: %"),
    "by its long name": ("", ":reg percent x<ret>", "register is read only: %"),
    "the selections' numbers": ("a b", "%S\\s<ret>:echo %reg{hash}<ret>", "1 2"),
    "no register to be read": ("", ":echo %reg{!}<ret>", "unknown expansion: !"),
    # values
    "the client and the buffer": ("", ":echo %val{client} %val{bufname} %val{buffile}<ret>", "client0 *scratch* *scratch*"),
    "the cursor": ("é<ret>éb", "jl:echo %val{cursor_line} %val{cursor_column} %val{cursor_char_column}<ret>", "2 3 2"),
    "the main selection's text": ("ab cd", "%S\\s<ret>:echo %val{selection}<ret>", "cd"),
    "the texts of all": ("ab cd", ":select 1.4,1.5 1.1,1.2<ret>:echo %val{selections}<ret>", "ab cd"),
    "how many there are": ("ab cd", ":select 1.4,1.5 1.1,1.2<ret>:echo %val{selection_count}<ret>", "2"),
    "the main one's description": ("éab", "ll<a-;>H:echo %val{selection_desc}<ret>", "1.4,1.3"),
    "of all, from the main one on": ("abcdef", ":select 1.3,1.2 1.6,1.5 1.1,1.1<ret>:echo %val{selections_desc}<ret>", "1.3,1.2 1.6,1.5 1.1,1.1"),
    "a text that isn't changed": ("", ":echo %val{modified}<ret>", "false"),
    "one that is": ("a", ":echo %val{modified}<ret>", "true"),
    "a list in quotes is one word": ("", ":reg a x y<ret>:fail \"%reg{a}\"<ret>", "x y"),
    "and several without": ("", ":reg a x y<ret>:fail %reg{a}<ret>", COUNT),
    "no such value": ("", ":echo %val{name}<ret>", "unknown expansion: name"),
    "no such option to be read": ("", ":echo %opt{name}<ret>", "unknown expansion: name"),
    "no such kind": ("", ":echo %sh{ls}<ret>", "unknown expansion: ls"),
    "no argument": ("", ":echo %arg{1}<ret>", "unknown expansion: 1"),
    # selections
    "column 0": ("abc", ":select 1.0,1.1<ret>", "bad selection description: 1.0,1.1"),
    "one place": ("abc", ":select 1.1,1.2 1.1<ret>", "bad selection description: 1.1"),
    "no description": ("abc", ":select<ret>", COUNT),
    # buffers
    "no such buffer": ("", ":buffer x<ret>", "no such buffer: x"),
    "none to be dropped": ("", ":delete-buffer x<ret>", "no such buffer: x"),
    "none to be dropped in any case": ("", ":db! x<ret>", "no such buffer: x"),
    # limits
    "as many commands as a key may run": ("", f":{'nop;' * 4095}<ret>", ""),
    "one too many": ("", f":{'nop;' * 4096}<ret>", "given up: budget spent"),
    # faces
    "a face is set everywhere": ("", ":face window A red<ret>", "no such scope: window"),
    "the scope is told before the face": ("", ":face buffer A red,<ret>", "no such scope: buffer"),
    "a face without a reading": ("", ":set-face global A red,<ret>", "bad face at 4"),
    "a face over itself": ("", ":face global A red@A<ret>", "face cycle: A"),
    "faces over one another": ("", ":face global A red@B; face global B blue@A<ret>", "face cycle: B"),
    "a name comes before a colour": ("", ":face global red blue; face global A red; face global red A<ret>", "face cycle: red"),
    "a face that isn't set": ("", ":unset-face global A<ret>", "no such face: A"),
    "a face that was unset": ("", ":face global A red; unset-face global A; unset-face global A<ret>", "no such face: A"),
    "a given face is unset": ("", ":unset-face global Error; unset-face global Error<ret>", "no such face: Error"),
    # highlighters
    "no type of highlighters": ("", ":addhl global/ wrap x<ret>", "no such highlighter: wrap"),
    "two words at least": ("", ":addhl wrap<ret>", COUNT),
    "a fill takes a face": ("", ":addhl nowhere/ fill<ret>", COUNT),
    "a switch of line numbers": ("", ":addhl nowhere/ number-lines -override<ret>", "unknown switch: -override"),
    "a path without a scope": ("", ":addhl nowhere/ line x red<ret>", "no such highlighter: nowhere/"),
    "a scope alone": ("", ":addhl global fill red<ret>", "no such highlighter: global"),
    "below no group": ("", ":addhl global/a/ group<ret>", "no such highlighter: global/a/"),
    "below another highlighter": ("", ":addhl global/a fill red; addhl global/a/b group<ret>", "no such highlighter: global/a/b"),
    "below a group": ("", ":addhl window/a group; addhl window/a/b group; addhl window/a/b group<ret>", "highlighter exists: window/a/b"),
    "a name that was made": ("", ":addhl global/ fill red; addhl global/ fill red<ret>", "highlighter exists: global/fill_red"),
    "with a slash": ("", ":addhl buffer/ regex a/b 0:red; addhl buffer/ regex a/b 0:red<ret>", "highlighter exists: buffer/regex_a<slash>b_0:red"),
    "a path is told before a number": ("", ":addhl global/a group; addhl global/a line x mauve<ret>", "highlighter exists: global/a"),
    "a number before a face": ("", ":addhl global/ line x mauve<ret>", VALUE),
    "the face of a column": ("", ":addhl global/ column 03 mauve<ret>", "bad face at 0"),
    "a group without a face": ("", ":addhl global/ regex x red<ret>", VALUE),
    "a group that is no number": ("", ":addhl global/ regex x y:red<ret>", VALUE),
    "the face of a group": ("", ":addhl global/ regex ( 10:red,mauve<ret>", "bad face at 4"),
    "a pattern that can't be made": ("", ":addhl global/a regex ( 0:red<ret>", "bad pattern"),
    "it leaves no highlighter": ("", ":addhl global/a regex ( 0:red<ret>:rmhl global/a<ret>", "no such highlighter: global/a"),
    "a highlighter of a pattern": ("", ":addhl global/a regex x 0:red; addhl global/a group<ret>", "highlighter exists: global/a"),
    "removed with those below it": ("", ":addhl global/a group; addhl global/a/b group; rmhl global/a; rmhl global/a/b<ret>", "no such highlighter: global/a/b"),
    "replaced without those below it": ("", ":addhl global/a group; addhl global/a/b group; addhl -override global/a group; rmhl global/a/b<ret>", "no such highlighter: global/a/b"),
    "nothing to be removed": ("", ":addhl global/a group; rmhl global/<ret>", "no such highlighter: global/"),
    # boxes
    "a box has one text": ("", ":info a b<ret>", COUNT),
    "a title lacks its word": ("", ":info -title<ret>", COUNT),
}

# a text that is typed; what is typed then, line by line; the text that is then drawn, the mode line, and the status
DRAWN = {
    "a description": ("abcd", [":select 1.2,1.3<ret>"], "a[b]<c>d\n", "1:3 normal 1/1", ""),
    "a turned one, and another": ("abcdefgh", [":select 1.3,1.2 1.6,1.7<ret>"], "a<b>[c]de(f)<g>h\n", "1:2 normal 1/2", ""),
    "the first is the main one": ("abcd", [":select 1.3,1.3 1.1,1.1<ret>"], "<a>b<c>d\n", "1:3 normal 2/2", ""),
    "those that share characters": ("abcdef", [":select 1.1,1.3 1.4,1.2<ret>"], "[abc]<d>ef\n", "1:4 normal 1/1", ""),
    "leading zeros": ("abcd", [":select 01.002,1.2<ret>"], "a<b>cd\n", "1:2 normal 1/1", ""),
    "a byte inside of a character": ("éab", [":select 1.2,1.2<ret>"], "<é>ab\n", "1:1 normal 1/1", ""),
    "characters": ("éab", [":select -codepoint 1.2,1.2<ret>"], "é<a>b\n", "1:2 normal 1/1", ""),
    "too far on": ("ab<ret>cd", [":select 9.99999999999,9.9<ret>"], "ab\ncd<\n>", "2:3 normal 1/1", ""),
    "too far to the right": ("ab<ret>cd", [":select 1.9,1.2<ret>"], "a<b>[\n]cd\n", "1:2 normal 1/1", ""),
    "a description that is none selects nothing": ("abc", [":select 1.2,1.2 x<ret>"], "<a>bc\n", ONE, "bad selection description: x"),
    "each gets its own string": ("abcdef", [":set-register dquote '' XY<ret>", ":select 1.1,1.2 1.3,1.4<ret>", "R"], "(X)<Ye>f\n", "1:3 normal 2/2", ""),
    "a narrow tab": ("<tab>b", [":set buffer tabstop 4<ret>"], "<    >b\n", ONE, ""),
    "an indent of two": ("ab", [":set global indentwidth 2<ret>", ">"], "  <a>b\n", "1:3 normal 1/1", ""),
    "an indent of a tab": ("ab", [":set global indentwidth 0<ret>", ">"], "        <a>b\n", "1:2 normal 1/1", ""),
    "the next key takes the status away": ("ab", [":echo x<ret>", "l"], "a<b>\n", "1:2 normal 1/1", ""),
    "what is typed behind quit does nothing": ("ab", [":q; echo x<ret>ic", "id"], "<a>b\n", ONE, "x"),
}

BOTH = b"\xef\xbb\xbfa\r\nb\r\n"

# the files that there are; what is typed, line by line; the text that is then drawn, the mode line with the buffer's
# name, and the status; the files that there are then, with what is as before left out
FILES = {
    "a file is read": ({"f": b"ab\ncd"}, [":edit f<ret>"], "<a>b\ncd\n", f"f {ONE}", "", {}),
    "one that isn't there is empty": ({}, [":e f<ret>"], START, f"f {ONE}", "", {}),
    "written as it was read": ({"f": BOTH}, [":e f<ret>", ":write<ret>"], "<a>\nb\n", f"f {ONE}", "", {}),
    "and its form is told": ({"f": BOTH}, [":e f<ret>:echo %opt{eolformat} %opt{BOM}<ret>"], "<a>\nb\n", f"f {ONE}", "crlf utf8", {}),
    "bytes that are no text": ({"f": b"a\xff"}, [":e f<ret>"], START, f"*scratch* {ONE}", "not UTF-8 at byte 1", {}),
    "behind the mark of bytes": ({"f": b"\xef\xbb\xbf\xff"}, [":e f<ret>"], START, f"*scratch* {ONE}", "not UTF-8 at byte 3", {}),
    "a folder is no file": ({"d/x": b""}, [":e d<ret>"], START, f"*scratch* {ONE}", "file fault: d", {}),
    "no folder to write to": ({}, [":write d/x<ret>"], START, f"*scratch* {ONE}", "file fault: d/x", {}),
    "a file that is too big": ({"f": b"a" * 16_777_217}, [":e f<ret>"], START, f"*scratch* {ONE}", "text is full", {}),
    "written elsewhere": ({}, ["iab<esc>:write f<ret>"], "ab<\n>", "*scratch* 1:3 normal 1/1", "", {"f": b"ab\n"}),
    "in another form": ({}, ["iab<esc>:set buffer eolformat crlf<ret>:set buffer BOM utf8<ret>:w f<ret>"], "ab<\n>", "*scratch* 1:3 normal 1/1", "", {"f": b"\xef\xbb\xbfab\r\n"}),
    "back in the first buffer": ({}, ["iab<esc>:e f<ret>", ":buffer *scratch*<ret>"], "ab<\n>", "*scratch* 1:3 normal 1/1", "", {}),
    "a buffer is shown again": ({"f": b"a"}, [":e f<ret>iX<esc>:b *scratch*<ret>", ":e f<ret>"], "X<a>\n", "f 1:2 normal 1/1", "", {}),
    "a buffer is dropped": ({"f": b"a"}, ["ib<esc>:e f<ret>", ":delete-buffer<ret>"], "b<\n>", "*scratch* 1:2 normal 1/1", "", {}),
    "the last one is dropped": ({}, ["ib<esc>:db<ret>"], START, f"*scratch* {ONE}", "", {}),
    "not one that was changed": ({"f": b"a"}, [":e f<ret>iX<esc>", ":db<ret>"], "X<a>\n", "f 1:2 normal 1/1", f"{UNDONE}f", {}),
    "unless in any case": ({"f": b"a"}, [":e f<ret>iX<esc>", ":db!<ret>"], START, f"*scratch* {ONE}", "", {}),
    "another is dropped": ({"f": b"a"}, [":e f<ret>:b *scratch*<ret>", ":db f<ret>:b f<ret>"], START, f"*scratch* {ONE}", "no such buffer: f", {}),
    "a changed one isn't left": ({}, [":e f<ret>iX<esc>", ":quit<ret>"], "X<\n>", "f 1:2 normal 1/1", f"{UNDONE}f", {}),
    "nor are two": ({}, [":e f<ret>iX<esc>:e g<ret>iX<esc>", ":q<ret>"], "X<\n>", "g 1:2 normal 1/1", f"{UNDONE}f g", {}),
    "one that was written elsewhere neither": ({}, [":e f<ret>iX<esc>:w g<ret>", ":q<ret>"], "X<\n>", "f 1:2 normal 1/1", f"{UNDONE}f", {"g": b"X\n"}),
    "one that was written is": ({}, [":e f<ret>iX<esc>:w<ret>", ":q<ret>", "iY<esc>"], "X<\n>", "f 1:2 normal 1/1", "", {"f": b"X\n"}),
    "a changed text without a file is": ({}, ["iX<esc>", ":q<ret>", "iY<esc>"], "X<\n>", "*scratch* 1:2 normal 1/1", "", {}),
    "left in any case": ({}, [":e f<ret>iX<esc>", ":q!<ret>", "iY<esc>"], "X<\n>", "f 1:2 normal 1/1", "", {}),
    "written and left": ({}, [":e f<ret>iX<esc>", ":wq<ret>", "iY<esc>"], "X<\n>", "f 1:2 normal 1/1", "", {"f": b"X\n"}),
    "written and not left": ({}, [":e g<ret>iX<esc>:e f<ret>iX<esc>", ":write-quit<ret>", "iY<esc>"], "XY<\n>", "f 1:3 normal 1/1", "", {"f": b"X\n"}),
    "as many buffers as there may be": ({}, ["".join(f":e b{n}<ret>" for n in range(1023))], START, f"b1022 {ONE}", "", {}),
    "one too many": ({}, ["".join(f":e b{n}<ret>" for n in range(1024))], START, f"b1022 {ONE}", "too many buffers", {}),
}


def play(name, files, words, lines, wanted, left, program, report):
    """Plays lines of keys in a folder of files, and compares the last drawing and the files that are left."""
    with tempfile.TemporaryDirectory() as folder:
        top = pathlib.Path(folder)
        for file, content in files.items():
            (top / file).parent.mkdir(exist_ok=True)
            (top / file).write_bytes(content)
        try:
            done = subprocess.run([program, "-ui", "json", *words], input=b"".join(map(keys_line, lines)), capture_output=True, cwd=folder, timeout=SECONDS)
        except subprocess.TimeoutExpired:
            report.check(f"commands: {name}", wanted, "timeout")
            return
        report.check(f"commands: {name}", wanted, last_drawing(done.stdout) if done.returncode == 0 else done.returncode)
        there = {str(path.relative_to(top)): path.read_bytes() for path in top.rglob("*") if path.is_file()}
        report.check(f"commands: {name}: files", {**files, **left}, there)


def faces(program, report):
    """An echoed text has the face of the status line, and an error its own."""
    for command, of in (("echo", STATUS_LINE), ("fail", ERROR)):
        done = subprocess.run([program, "-ui", "json"], input=keys_line(f":{command} a<ret>"), capture_output=True, timeout=SECONDS)
        wanted = request("draw_status", [atom("a", of)], [atom(f"*scratch* {ONE} - client0", STATUS_LINE)], STATUS_LINE)
        report.check(f"commands: the face of {command}", wanted, done.stdout.splitlines(True)[-3])


def run(program, report):
    faces(program, report)
    for name, (text, typed, status) in STATUSES.items():
        lines = [f"i{text}<esc>gg", typed]
        done = subprocess.run([program, "-ui", "json"], input=b"".join(map(keys_line, lines)), capture_output=True, timeout=SECONDS)
        came = last_drawing(done.stdout)[2] if done.returncode == 0 else done.returncode
        report.check(f"commands: {name}: {typed[:80]}", status, came)
    for name, (text, lines, drawn, mode, status) in DRAWN.items():
        play(name, {}, [], [f"i{text}<esc>gg", *lines], (drawn, f"*scratch* {mode} - client0", status), {}, program, report)
    for name, (files, lines, drawn, mode, status, left) in FILES.items():
        play(name, files, [], lines, (drawn, f"{mode} - client0", status), left, program, report)
