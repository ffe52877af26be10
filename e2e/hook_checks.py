"""Hooks: what they hear, in which order they are run, what their errors do, and what is run where clients come and go."""
from drawings import keys_line
from edit_checks import last_drawing, play
from nesting_checks import DEEP, SPENT, statuses, typed
from processes import run_whole, run_with_files
from replay_checks import line

AT_A, AT_B, AT_C = (f"1:{column} normal 1/1" for column in (1, 2, 3))

# what is typed, and the status: what hooks hear, and by which text
HEARD = {
    "a character that is typed": ("", ":hook global InsertChar x 'echo got %val{hook_param}'<ret>ix", "got x"),
    "no other one": ("", ":hook global InsertChar x 'echo got'<ret>iy", ""),
    "a newline is one": ("", ":hook global InsertChar .* 'echo got'<ret>i<ret>", "got"),
    "a whole parameter is asked for": ("", ":hook global InsertChar '' 'echo got'<ret>ix", ""),
    "a key of normal mode": ("ab", ":hook global NormalKey l 'echo got'<ret>l", "got"),
    "by its spelling": ("ab", ":hook global NormalKey .* 'echo %val{hook_param}'<ret><lt>", "<lt>"),
    "a count is a key": ("ab", ":hook global NormalKey 3 'echo got'<ret>3", "got"),
    "one that another one waits for": ("ab", ":hook global NormalKey b 'echo got'<ret>fb", "got"),
    "by the mode in which it began": ("ab", ":hook global NormalKey i 'echo got'<ret>i", "got"),
    "and in insert mode": ("ab", ":hook global InsertKey <lt>esc> 'echo got'<ret>i<esc>", "got"),
    "no key of a prompt": ("ab", ":hook global NormalKey x 'echo got'; hook global InsertKey x 'echo got'<ret>:x<esc>", ""),
    "a key that failed": ("ab", ":hook global NormalKey U 'reg a b'<ret>U:echo %reg{a}<ret>", "b"),
    "insert mode": ("ab", ":hook global ModeChange push:normal:insert 'echo got'<ret>i", "got"),
    "and its end": ("ab", ":hook global ModeChange pop:insert:normal 'echo got'<ret>i<esc>", "got"),
    "a prompt": ("ab", ":hook global ModeChange push:normal:prompt 'reg a b'<ret>:<esc>:echo %reg{a}<ret>", "b"),
    "its end, before what it asks for": ("ab", ":hook global ModeChange pop:prompt:normal 'reg a b'<ret>:echo %reg{a}<ret>", "b"),
    "a register that keys set": ("ab", ":hook global RegisterModified a 'echo got'<ret>\"ay", "got"),
    "one that a command sets": ("ab", ":hook global RegisterModified a 'echo got'<ret>:reg a x<ret>", "got"),
    "by its one character": ("ab", ":hook global RegisterModified .* 'echo -- %val{hook_param}'<ret>y", "\""),
    "no register that is not set": ("ab", ":hook global RegisterModified a 'echo got'<ret>\"by", ""),
    "an option": ("", ":hook global GlobalSetOption tabstop=4 'echo got'<ret>:set global tabstop 4<ret>", "got"),
    "by its scope": ("", ":hook global WinSetOption tabstop=4 'echo got'<ret>:set window tabstop 4<ret>", "got"),
    "of no other scope": ("", ":hook global GlobalSetOption .* 'echo got'<ret>:set window tabstop 4<ret>", ""),
    "a buffer that is made": ("", ":hook global BufCreate f 'echo got'<ret>:e f<ret>", "got"),
    "and shown": ("", ":hook global WinDisplay f 'echo got'<ret>:e f<ret>", "got"),
    "made before it is shown": ("", ":hook global BufCreate f 'reg a made'; hook global WinDisplay f 'echo %reg{a}'<ret>:e f<ret>", "made"),
    "one that goes": ("", ":hook global BufClose f 'echo got'<ret>:e f<ret>:db<ret>", "got"),
    "the one in its place": ("", ":hook global BufCreate .* 'echo %val{hook_param}'<ret>:db!<ret>", "*scratch*"),
}

# what is typed, and the status: which hooks are run, and in which order
ORDERED = {
    "in the order in which they came": ("ab", ":hook global NormalKey l 'reg a \"%reg{a}x\"'; hook global NormalKey l 'reg a \"%reg{a}y\"'<ret>:reg a z<ret>l:echo %reg{a}<ret>", "zxy"),
    "those of all before those of a buffer": ("ab", ":hook buffer NormalKey l 'reg a \"%reg{a}y\"'; hook global NormalKey l 'reg a \"%reg{a}x\"'<ret>:reg a z<ret>l:echo %reg{a}<ret>", "zxy"),
    "those of a window last": ("ab", ":hook window NormalKey l 'reg a \"%reg{a}y\"'; hook buffer NormalKey l 'reg a \"%reg{a}x\"'<ret>:reg a z<ret>l:echo %reg{a}<ret>", "zxy"),
    "of no other buffer": ("ab", ":hook buffer NormalKey l 'echo got'<ret>:e f<ret>l", ""),
    "once": ("abc", ":hook -once global NormalKey l 'reg a \"%reg{a}x\"'<ret>:reg a z<ret>ll:echo %reg{a}<ret>", "zx"),
    "once, also where it is run inside itself": ("abc", ":hook -once global NormalKey l 'reg a \"%reg{a}x\"; exec -with-hooks l'<ret>:reg a z<ret>l:echo %reg{a}<ret>", "zx"),
    "not one that was removed": ("ab", ":hook -group g global NormalKey l 'echo got'; remove-hooks global g<ret>l", ""),
    "nor one that an earlier one removes": ("ab", ":hook global NormalKey l 'remove-hooks global g'; hook -group g global NormalKey l 'echo got'<ret>l", ""),
    "one that removes itself is run to its end": ("ab", ":hook -group g global NormalKey l 'remove-hooks global g; echo got'<ret>l", "got"),
    "one that an earlier one adds, from the next event on": ("abc", ":hook -once global NormalKey l %{hook global NormalKey l 'echo got'}<ret>l", ""),
    "and then it is": ("abc", ":hook -once global NormalKey l %{hook global NormalKey l 'echo got'}<ret>ll", "got"),
    "no hooks of keys that are run": ("abc", ":hook global NormalKey l 'echo got'<ret>:exec l<ret>", ""),
    "but where they are asked for": ("abc", ":hook global NormalKey l 'echo got'<ret>:exec -with-hooks l<ret>", "got"),
    "not inside keys without": ("abc", ":hook global NormalKey l 'echo got'<ret>:exec ':exec -with-hooks l<lt>ret>'<ret>", ""),
    "nor behind them": ("abc", ":hook global InsertChar x 'echo got'<ret>:exec ix; nop<ret>", ""),
    "those of a macro": ("abc", ":hook global NormalKey l 'echo got'<ret>:reg b l<ret>\"bq", "got"),
    "of a hook's keys where it asks": ("abc", ":hook global NormalKey l 'exec -with-hooks h'; hook global NormalKey h 'echo got'<ret>ll", "got"),
    "an inner event before the next outer hook": ("abc", ":hook global NormalKey l 'exec -with-hooks h'; hook global NormalKey l 'reg a \"%reg{a}y\"'; hook global NormalKey h 'reg a \"%reg{a}x\"'<ret>:reg a z<ret>l:echo %reg{a}<ret>", "zxy"),
    "the parameter stands again behind an inner one": ("abc", ":hook global NormalKey l 'exec -with-hooks h; echo %val{hook_param}'; hook global NormalKey h nop<ret>l", "l"),
    "no parameter without a hook": ("", ":echo %val{hook_param}<ret>", "unknown expansion: hook_param"),
}

# what is typed, and the status: what errors and limits do
ENDED = {
    "an error of a hook": ("ab", ":hook global NormalKey l 'fail no'<ret>l", "no"),
    "ends that hook alone": ("ab", ":hook global NormalKey l 'fail no'; hook global NormalKey l 'reg a b'<ret>l:echo %reg{a}<ret>", "b"),
    "the last one is told": ("ab", ":hook global NormalKey l 'fail one'; hook global NormalKey l 'fail two'<ret>l", "two"),
    "what a later one says hides it": ("ab", ":hook global NormalKey l 'fail no'; hook global NormalKey l 'try nop; nop'<ret>l", "no"),
    "but not what it echoes": ("ab", ":hook global NormalKey l 'fail no'; hook global NormalKey l 'echo yes'<ret>l", "no"),
    "an error of a key stands before one of its hooks": ("ab", ":hook global NormalKey U 'fail no'<ret>U", "no"),
    "and behind none": ("ab", ":hook global NormalKey U 'echo yes'<ret>U", "nothing to redo"),
    "commands behind a hook's error are run": ("", ":hook global RegisterModified a 'fail no'<ret>:reg a x; reg b y<ret>:echo %reg{b}<ret>", "y"),
    "a hook that waits for its own event": ("ab", ":hook global RegisterModified a 'reg a x'<ret>:reg a y<ret>", DEEP),
    "an option's hook that sets it": ("", ":hook global GlobalSetOption .* 'set global tabstop 4'<ret>:set global tabstop 2<ret>", DEEP),
    "an option of a buffer that its own hook sets": ("", ":hook global BufSetOption .* 'set buffer tabstop 4'<ret>:set buffer tabstop 2<ret>", DEEP),
    "insert mode that a hook of it enters": ("ab", ":hook global ModeChange push:normal:insert 'exec -with-hooks i'<ret>i", DEEP),
    "and one that a hook of its end enters": ("ab", ":hook global ModeChange pop:insert:normal 'exec -with-hooks i'<ret>i<esc>", DEEP),
    "two that wake one another": ("ab", ":hook global RegisterModified a 'reg b x'; hook global RegisterModified b 'reg a x'<ret>:reg a y<ret>", DEEP),
    "many at once": ("ab", typed("hook global RegisterModified a 'reg b x; reg b x'; hook global RegisterModified b 'reg c x; reg c x'; hook global RegisterModified c 'exec " + "h" * 2000 + "'") + ":reg a y<ret>", SPENT),
    "no hook behind giving up": ("ab", ":hook global NormalKey l 'reg b got'<ret>:reg a 'lll'<ret>999999\"aq:echo %reg{b}<ret>", "got"),
}

# what is typed that is refused, and the status
REFUSED = {
    "a scope": ("", ":hook all NormalKey .* nop<ret>", "no such scope: all"),
    "a hook": ("", ":hook global Nothing .* nop<ret>", "no such hook: Nothing"),
    "a pattern": ("", ":hook global NormalKey ( nop<ret>", "bad pattern"),
    "too few words": ("", ":hook global NormalKey .*<ret>", "wrong argument count"),
    "a scope to be cleared": ("", ":remove-hooks all g<ret>", "no such scope: all"),
    "nothing to be removed": ("", ":remove-hooks global g<ret>", ""),
}

# a text that is typed; what is typed then, line by line; the text that is then drawn, the mode line, and the status
TYPED = {
    "a hook types": ("ab", [":hook global InsertChar x 'exec iy<lt>esc>'<ret>", "ix<esc>"], "xy<a>b\n", AT_C, ""),
    "and its client is where it was": ("ab", [":hook global InsertChar x 'exec iy'<ret>", "ix"], "xy<a>b\n", AT_C, ""),
    "all is one group of changes": ("ab", [":hook global NormalKey i 'exec iy<lt>esc>'<ret>", "ix<esc>", "u"], "<a>b\n", AT_A, ""),
    "a hook leaves insert mode": ("ab", [":hook global InsertChar x 'exec -with-hooks <lt>esc>'<ret>", "ix"], "x<a>b\n", AT_B, ""),
}

# lines of clients; the mark of what each is drawn at the end, and the status
CLIENTS = {
    "a client that comes": ([(0, ":hook global ClientCreate .* 'echo hi %val{hook_param}'<ret>")], ["", "hi client1"]),
    "by its own number": ([(0, ":hook global ClientCreate client1 'echo hi'<ret>")], ["", "hi"]),
    "and is shown a buffer": ([(0, ":hook global WinDisplay .* 'echo hi'<ret>")], ["", "hi"]),
    "a register that another one sets": ([(0, ":hook global RegisterModified a 'echo got'<ret>"), (1, ":reg a x<ret>")], ["", "got"]),
    "of a buffer that another one sees": ([(0, ":hook buffer RegisterModified a 'echo got'<ret>"), (1, ":reg a x<ret>")], ["", "got"]),
    "of no other window": ([(0, ":hook window RegisterModified a 'echo got'<ret>"), (1, ":reg a x<ret>")], ["", ""]),
    "one that went": ([(0, ":hook global ClientClose .* 'reg a gone'<ret>"), (1, ":q<ret>"), (0, ":echo %reg{a}<ret>")], ["gone"]),
}


def clients(replayer, report):
    """Clients of one session: what hooks hear of them."""
    for name, (lines, said) in CLIENTS.items():
        for number, wanted in enumerate(said):
            kinds = ["json" if place == number else "silent" for place in range(2)]
            ended = run_whole(replayer, kinds, b"".join(line(who, keys) for who, keys in lines) + line(number))
            report.check(f"hooks, clients: {name}: client {number}", wanted, last_drawing(ended.output)[2] if ended.status == 0 else ended.status)


# files; what is typed; the status, and the files then
FILES = {
    "one that is read": ({"f": b"a\n"}, [":hook global BufOpenFile f 'echo got'<ret>:e f<ret>"], "got", {"f": b"a\n"}),
    "not one that there isn't": ({}, [":hook global BufOpenFile f 'echo got'<ret>:e f<ret>"], "", {}),
    "one that is written": ({}, [":hook global BufWritePost f 'echo got'<ret>:w f<ret>"], "got", {"f": b"\n"}),
    "what is typed before it is written": ({}, [":hook global BufWritePre f 'exec ix<lt>esc>'<ret>:w f<ret>"], "", {"f": b"x\n"}),
    "and not what is typed behind it": ({}, [":hook global BufWritePost f 'exec ix<lt>esc>'<ret>:w f<ret>"], "", {"f": b"\n"}),
    "a buffer that a hook takes away isn't written": ({"f": b"a\n"}, [":e f<ret>:hook global BufWritePre f 'db! f'<ret>:w f<ret>"], "no such buffer: f", {"f": b"a\n"}),
}


def files(program, report):
    """What hooks hear of files that are read and written, and what is written behind them."""
    for name, (before, keys, status, after) in FILES.items():
        ended, found = run_with_files(program, ["-ui", "json"], b"".join(map(keys_line, keys)), before)
        report.check(f"hooks, files: {name}", (status, after), (last_drawing(ended.output)[2], found) if ended.status == 0 else ended.status)


def run(program, replayer, report):
    for kind, rows in (("heard", HEARD), ("ordered", ORDERED), ("ended", ENDED), ("refused", REFUSED)):
        statuses(f"hooks, {kind}", rows, program, report)
    play("hooks, typed", TYPED, program, report)
    files(program, report)
    clients(replayer, report)
