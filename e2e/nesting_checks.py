"""Keys and commands inside keys and commands: macros, key maps, aliases, defined commands, keys that are run, texts that are tried."""
import resource

from connections import play as over_sockets
from drawings import keys_line
from edit_checks import last_drawing, play
from processes import run_whole
from replay_checks import line

COUNT = "wrong argument count"
VALUE = "bad value"
DEEP = "given up: nested too deep"
SPENT = "given up: budget spent"
# how deep what is run may stand inside other things, and how many units a key has
MAX_DEPTH, MAX_UNITS = 32, 4096
# how many seconds of a processor a key may take that is given up
MOST_SECONDS = 2
AT_A, AT_B, AT_C = (f"1:{column} normal 1/1" for column in (1, 2, 3))

# a text that is typed; what is typed then, line by line; the text that is then drawn, the mode line, and the status
MACROS = {
    "what was recorded is run": ("abcd", ["QlQq"], "ab<c>d\n", AT_C, ""),
    "as often as a count says": ("abcdef", ["QlQ3q"], "abcd<e>f\n", "1:5 normal 1/1", ""),
    "in a register": ("abcd", ["\"bQlQ\"bq"], "ab<c>d\n", AT_C, ""),
    "which no other one has": ("abcd", ["\"bQlQq"], "a<b>cd\n", AT_B, ""),
    "one without a name": ("abcd", ["QlQ\"@q"], "ab<c>d\n", AT_C, ""),
    "over lines": ("abcdef", ["Ql", "lQ", "q"], "abcd<e>f\n", "1:5 normal 1/1", ""),
    "it types": ("ab", ["Qix<esc>Qq"], "xx<a>b\n", AT_C, ""),
    "and ends in normal mode": ("ab", [":reg b ix<ret>", "\"bq"], "x<a>b\n", AT_B, ""),
    "behind a prompt too": ("ab", [":reg b :nop<ret>", "\"bq"], "<a>b\n", AT_A, ""),
    "no count is left": ("abcdef", [":reg b 3<ret>", "\"bql"], "a<b>cdef\n", AT_B, ""),
    "no key that waits": ("a b", [":reg b f<ret>", "\"bqb"], "<a> b\n", AT_A, ""),
    "no count goes on in it": ("abcdef", [":reg b l<ret>", "3\"bq"], "abc<d>ef\n", "1:4 normal 1/1", ""),
    "escape for a key that waits ends no recording": ("abc", ["Qf<esc>lQq"], "ab<c>\n", AT_C, ""),
    "nor in insert mode": ("abc", ["Qi<esc>lQq"], "ab<c>\n", AT_C, ""),
    "each run reads the register": ("abcdef", [":reg b ':reg b l<lt>ret>'<ret>", "3\"bq"], "ab<c>def\n", AT_C, ""),
    "an error ends the runs": ("abcdef", [":reg b lU<ret>", "3\"bq"], "a<b>cdef\n", AT_B, "nothing to redo"),
    "all is one group of changes": ("ab", ["Qix<esc>Q", "3q", "u"], "x<a>b\n", AT_B, ""),
    "a buffer's name as keys": ("ab", ["\"%q"], "<a>b\n", AT_A, ""),
    "a selection's text as keys": ("lb", ["\".q"], "l<b>\n", AT_B, ""),
    "the empty register": ("ab", ["\"_q"], "<a>b\n", AT_A, ""),
    "keys that begin a recording": ("abcdef", [":reg a Q<ret>", "\"aqlQq"], "ab<c>def\n", AT_C, ""),
    "with maps": ("abc", [":reg b l<ret>:map global normal l ll<ret>", "\"bq"], "ab<c>\n", AT_C, ""),
    "of all selections": ("ab<ret>cd", ["Qix<esc>Qu", "%<a-s>q"], "x<a>(b\n)x<c>[d\n]", "2:2 normal 2/2", ""),
}

# a text that is typed; what is typed then; the status
RECORDED = {
    "what was recorded": ("a", "\"bQiab<lt><esc>Q", "iab<lt><esc>"),
    "in its spelling": ("", "\"bQi <minus><lt>'<ret><tab><esc>Q", "i<space><minus><lt><quote><ret><tab><esc>"),
    "up to escape": ("a", "\"bQl<esc>h", "l"),
    "keys that wait": ("abc", "\"bQfcQ", "fc"),
    "keys of a prompt": ("", "\"bQ:nop<ret>Q", ":nop<ret>"),
    "the name of a register": ("a", "\"bQ\"<esc>lQ", "<dquote><esc>l"),
    "the register of the begin": ("a", "\"bQl\"cQ", "l<dquote>c"),
    "keys before maps": ("a", ":map global normal l h<ret>\"bQlQ", "l"),
    "not the key that is mapped to the end": ("a", ":map global normal z Q<ret>\"bzlz", "l"),
    "not the keys of a command": ("ab", "\"bQ:exec l<ret>Q", ":exec<space>l<ret>"),
    "not those of a macro": ("ab", ":reg a l<ret>\"bQ\"aqQ", "<dquote>aq"),
    "keys that fail": ("a", "\"bQUlQ", "Ul"),
    "ended by a command": ("a", "\"bQl:exec Q<ret>h", "l:exec<space>Q"),
    "behind one that was refused": ("a", "\"%QlQ\"bQhQ", "h"),
    "no keys": ("a", ":reg b x<ret>\"bQQ", ""),
}

MAPS = {
    "in normal mode": ("abcd", [":map global normal w l<ret>w"], "a<b>cd\n", AT_B, ""),
    "and no more": ("abcd", [":map global normal w l<ret>:unmap global normal w<ret>w"], "[abc]<d>\n", "1:4 normal 1/1", ""),
    "in insert mode": ("x", [":map global insert a b<ret>", "iaa<esc>"], "bb<x>\n", AT_C, ""),
    "which is no other mode": ("ab", [":map global insert l a<ret>", "l"], "a<b>\n", AT_B, ""),
    "in a prompt": ("", [":map global prompt a b<ret>", ":echo a<ret>"], "<\n>", AT_A, "b"),
    "a key that another one waits for": ("bla", [":map global normal a l<ret>fa"], "[b]<l>a\n", AT_B, ""),
    "the name of a register": ("xy", [":map global normal a b<ret>\"ay", ":echo %reg{b}<ret>"], "<x>y\n", AT_A, "x"),
    "in insert mode too": ("xy", ["\"by:map global insert a b<ret>", "i<c-r>a<esc>"], "x<x>y\n", AT_B, ""),
    "in a prompt too": ("xy", ["\"by:map global prompt a b<ret>", ":echo <c-r>a<ret>"], "<x>y\n", AT_A, "x"),
    "a digit": ("abcdef", [":map global normal 3 2<ret>3l"], "ab<c>def\n", AT_C, ""),
    "a key behind a count": ("abcdef", [":map global normal z l<ret>3z"], "abc<d>ef\n", "1:4 normal 1/1", ""),
    "to several keys": ("ab", [":map global normal z ix<lt>esc><ret>z"], "x<a>b\n", AT_B, ""),
    "to keys that leave a mode": ("ab", [":map global normal z ix<ret>z"], "x<a>b\n", "1:2 insert 1/1", ""),
    "to none": ("ab", [":map global normal l ''<ret>l"], "<a>b\n", AT_A, ""),
    "to none, while another one waits": ("abc", [":map global normal x ''<ret>fxc"], "[ab]<c>\n", AT_C, ""),
    "and not again": ("abcd", [":map global normal w l; map global normal l h<ret>w"], "a<b>cd\n", AT_B, ""),
    "nor to itself": ("abcd", [":map global normal l ll<ret>l"], "ab<c>d\n", AT_C, ""),
    "keys with names and modifiers": ("abcd", [":map global normal <lt>c-a> l; map global normal <lt>F2> ll<ret><c-a><f2>"], "abc<d>\n", "1:4 normal 1/1", ""),
    "a space": ("abcd", [":map global normal <lt>space> l<ret> "], "a<b>cd\n", AT_B, ""),
    "with a text about it": ("abcd", [":map -docstring 'to the right' global normal w l<ret>w"], "a<b>cd\n", AT_B, ""),
    "the window counts first": ("abcd", [":map global normal w l; map buffer normal w ll; map window normal w lll<ret>w"], "abc<d>\n", "1:4 normal 1/1", ""),
    "then the buffer": ("abcd", [":map global normal w l; map buffer normal w ll; map window normal w lll; unmap window normal w<ret>w"], "ab<c>d\n", AT_C, ""),
    "then all": ("abcd", [":map global normal w l; map buffer normal w ll; unmap buffer normal w<ret>w"], "a<b>cd\n", AT_B, ""),
    "mapped anew": ("abcd", [":map global normal w l; map global normal w ll<ret>w"], "ab<c>d\n", AT_C, ""),
    "an error ends the keys": ("ab", [":map global normal w lUl<ret>w"], "a<b>\n", AT_B, "nothing to redo"),
    "nothing to be unmapped": ("ab", [":unmap global normal w<ret>"], "<a>b\n", AT_A, ""),
}

RUN = {
    # keys
    "keys are run": ("abcd", [":execute-keys lL<ret>"], "a[b]<c>d\n", AT_C, ""),
    "of each selection": ("ab<ret>cd", ["%<a-s>", ":exec ix<lt>esc><ret>"], "x<a>(b\n)x<c>[d\n]", "2:2 normal 2/2", ""),
    "keys end in normal mode": ("ab", [":exec ix<ret>"], "x<a>b\n", AT_B, ""),
    "in a prompt too": ("ab", [":exec :nop<ret>", "l"], "a<b>\n", AT_B, ""),
    "no count is left": ("abcdef", [":exec 3<ret>l"], "a<b>cdef\n", AT_B, ""),
    "no register": ("ab", [":exec '\"a'<ret>y", ":echo %reg{dquote}<ret>"], "<a>b\n", AT_A, "a"),
    "no key that waits": ("a b", [":exec f<ret>b"], "<a> b\n", AT_A, ""),
    "cursors don't go back": ("abc", [":exec al<ret>"], "[al]<b>c\n", AT_C, ""),
    "nor later": ("abc", [":exec al<ret>", "i<esc>"], "<a>[lb]c\n", AT_A, ""),
    "no keys": ("ab", [":exec ''<ret>"], "<a>b\n", AT_A, ""),
    "without maps": ("abcd", [":map global normal l h<ret>:exec l<ret>"], "a<b>cd\n", AT_B, ""),
    "with maps": ("abcd", [":map global normal z l<ret>:exec -with-maps zz<ret>"], "ab<c>d\n", AT_C, ""),
    "maps for inner keys alone": ("abcd", [":map global normal z l<ret>:exec 'z:exec -with-maps z<lt>ret>'<ret>"], "a<b>cd\n", AT_B, ""),
    "and for outer ones alone": ("abcd", [":map global normal z l<ret>:exec -with-maps 'z:exec z<lt>ret>'<ret>"], "a<b>cd\n", AT_B, ""),
    "with hooks": ("abcd", [":exec -with-hooks l<ret>"], "a<b>cd\n", AT_B, ""),
    "with both": ("abcd", [":map global normal z l<ret>:exec -with-hooks -with-maps z<ret>"], "a<b>cd\n", AT_B, ""),
    "an error ends the keys": ("abcd", [":exec lUl<ret>"], "a<b>cd\n", AT_B, "nothing to redo"),
    "a pattern that can't be made does": ("abcd", [":exec ls(<lt>ret>l<ret>"], "a<b>cd\n", AT_B, "bad pattern"),
    "patterns are looked for": ("abcb", [":exec '%sb<lt>ret>d'<ret>"], "a<c><\n>", AT_C.replace("1/1", "2/2"), ""),
    "keys behind a quit are run": ("", [":q; exec ihi<lt>esc><ret>il"], "hi<\n>", AT_C, ""),
    "expansions go before": ("", [":exec \"i%val{client}<lt>esc>\"<ret>"], "client0<\n>", "1:8 normal 1/1", ""),
    # texts
    "commands one after another": ("abcd", [":evaluate-commands 'exec l; exec l'<ret>"], "ab<c>d\n", AT_C, ""),
    "of a selection's text": ("exec h<ret>exec h", ["%:eval %val{selection}<ret>"], "exec h\nexec< >h\n", "2:5 normal 1/1", ""),
    "what was done before an error stays": ("ab", [":try 'exec ix<lt>esc>; fail a' catch 'exec iy<lt>esc>'<ret>"], "xy<a>b\n", AT_C, ""),
    "a buffer that there isn't": ("ab", [":try 'b f' catch 'exec l; echo b'<ret>"], "a<b>\n", AT_B, "b"),
    # defined commands
    "words go into keys": ("ab", [":def -params 2 round 'exec \"i%arg{1}<lt>esc>a%arg{2}<lt>esc>\"'<ret>:round ( )<ret>"], "([a]<)>b\n", AT_C, ""),
    "a command as a key": ("abcd", [":def go 'exec ll'<ret>:map global normal w :go<lt>ret><ret>w"], "ab<c>d\n", AT_C, ""),
    "as deep as it may be": ("", [":def me 'exec -with-hooks ix<lt>esc>; me'<ret>:me<ret>"], "x" * 31 + "<\n>", "1:32 normal 1/1", DEEP),
}

TEXTS = {
    # trying
    "a try catches": ("", ":try 'fail x' catch 'echo y'<ret>", "y"),
    "a try alone": ("", ":try 'fail x'<ret>", ""),
    "a try that is well": ("", ":try 'echo a' catch 'echo y'<ret>", "a"),
    "what was said before an error": ("", ":try 'echo a; fail b'<ret>", "a"),
    "the error of what catches": ("", ":try 'fail x' catch 'fail y'<ret>", "y"),
    "it ends the commands": ("", ":try 'fail x' catch 'fail y'; echo z<ret>", "y"),
    "an error behind a try": ("", ":try 'fail x'; fail y; echo z<ret>", "y"),
    "a try in a try": ("", ":try %{try 'fail x' catch 'fail y'} catch 'echo z'<ret>", "z"),
    "a text that can't be read is caught": ("", ":try %{echo 'a} catch 'echo b'<ret>", "b"),
    "a pattern that can't be made is": ("", ":try 'exec s(<lt>ret>' catch 'echo b'<ret>", "b"),
    "a file that can't be read is": ("", ":try 'e /' catch 'echo b'<ret>", "b"),
    "an expansion that there isn't is": ("", ":try 'echo %val{x}' catch 'echo b'<ret>", "b"),
    "a command that there isn't is": ("", ":try x catch 'echo b'<ret>", "b"),
    "nothing is tried": ("", ":try ''<ret>", ""),
    "try takes one or three": ("", ":try a b<ret>", COUNT),
    "and not none": ("", ":try<ret>", COUNT),
    "with catch second": ("", ":try a b c<ret>", COUNT),
    # evaluating
    "evaluate": ("", ":eval 'echo a; echo b'<ret>", "b"),
    "evaluate fails": ("", ":eval 'fail a'; echo b<ret>", "a"),
    "an inner text is read in its turn": ("", ":reg a x; eval 'echo %reg{a}'<ret>", "x"),
    "and told by its own places": ("", ":eval \"echo 'a\"<ret>", "unclosed at 5"),
    "nothing is evaluated": ("", ":eval ''<ret>", ""),
    "evaluate takes one": ("", ":eval echo a<ret>", COUNT),
    "and not none to be run": ("", ":eval<ret>", COUNT),
    # running keys
    "keys that are no keys": ("", ":exec '<lt>nope>'<ret>", "bad key at 0"),
    "behind others": ("", ":exec 'ia<lt>nope>'<ret>", "bad key at 2"),
    "keys that fail end the commands": ("", ":exec u; echo b<ret>", "nothing to undo"),
    "and are caught": ("", ":try 'exec u' catch 'echo b'<ret>", "b"),
    "keys take one": ("", ":exec l l<ret>", COUNT),
    "a switch of neither": ("", ":exec -with-all l<ret>", "unknown switch: -with-all"),
    # commands that are defined
    "a command that was defined": ("", ":def say 'echo hi'<ret>:say<ret>", "hi"),
    "by its long name": ("", ":define-command say 'echo hi'<ret>:say<ret>", "hi"),
    "takes no words": ("", ":def say 'echo hi'<ret>:say a<ret>", COUNT),
    "with words": ("", ":def -params 1..2 say 'echo %arg{1} %arg{@}'<ret>:say a b<ret>", "a a b"),
    "too few": ("", ":def -params 1..2 say 'echo %arg{@}'<ret>:say<ret>", COUNT),
    "too many": ("", ":def -params 1..2 say 'echo %arg{@}'<ret>:say a b c<ret>", COUNT),
    "just so many": ("", ":def -params 02 say 'echo %arg{@}'<ret>:say a b<ret>", "a b"),
    "up to two": ("", ":def -params ..2 say 'echo x %arg{@}'<ret>:say a b; say<ret>", "x"),
    "and no more than two": ("", ":def -params ..2 say 'echo x %arg{@}'<ret>:say a b c<ret>", COUNT),
    "a number that none is": ("", ":def -params 2..1 say nop<ret>:say a b<ret>", COUNT),
    "switches are words": ("", ":def -params 1 say 'echo -- %arg{1}'<ret>:say -x<ret>", "-x"),
    "a word with spaces is one": ("", ":def -params 1 say 'fail %arg{1}'<ret>:say 'a  b'<ret>", "a  b"),
    "all words are several": ("", ":def -params 2 say 'fail %arg{@}'<ret>:say a b<ret>", COUNT),
    "and one in quotes": ("", ":def -params 2 say 'fail \"%arg{@}\"'<ret>:say a b<ret>", "a b"),
    "a word that there isn't": ("", ":def -params 1 say 'echo %arg{2}'<ret>:say a<ret>", "unknown expansion: 2"),
    "the word of zero": ("", ":def -params 1 say 'echo %arg{0}'<ret>:say a<ret>", "unknown expansion: 0"),
    "with a zero before": ("", ":def -params 1 say 'echo %arg{01}'<ret>:say a<ret>", "a"),
    "no words behind it": ("", ":def -params 1 say nop<ret>:say a; echo %arg{1}<ret>", "unknown expansion: 1"),
    "none of them at all": ("", ":def -params 1 say nop<ret>:say a; echo b %arg{@}<ret>", "b"),
    "words inside of words": ("", ":def -params 1 in 'echo %arg{1}'<ret>:def -params 1 out 'in b; try %{fail %arg{1}} catch %{echo %arg{1}}'<ret>:out a<ret>", "a"),
    "the words of the innermost": ("", ":def -params 1 in 'echo %arg{1}'<ret>:def -params 1 out 'in b'<ret>:out a<ret>", "b"),
    "none of a command without": ("", ":def in 'echo b %arg{@}'<ret>:def -params 1 out in<ret>:out a<ret>", "b"),
    "words stand again behind an error": ("", ":def -params 1 in 'fail %arg{1}'<ret>:def -params 1 out 'try %{in b}; echo %arg{1}'<ret>:out a<ret>", "a"),
    "words of keys that are run": ("", ":def -params 1 say 'exec %{:echo %arg{1}<lt>ret>}'<ret>:say a<ret>", "a"),
    "defined again": ("", ":def say 'echo a'; def -override say 'echo b'<ret>:say<ret>", "b"),
    "without the switch too": ("", ":def say 'echo a'; def -params 1 say 'echo b'<ret>:say<ret>", COUNT),
    "with all switches": ("", ":def -hidden -override -docstring 'a b' -params 1 say 'echo %arg{1}'<ret>:say a<ret>", "a"),
    "no table's name": ("", ":def echo 'fail x'<ret>:echo a<ret>", "a"),
    "nor a short one": ("", ":def eval 'fail x'<ret>:eval 'echo a'<ret>", "a"),
    "a name and commands are needed": ("", ":def say<ret>", COUNT),
    "and no more words": ("", ":def say nop nop<ret>", COUNT),
    "a number is needed": ("", ":def -params<ret>", COUNT),
    # aliases
    "an alias": ("", ":alias global hey echo<ret>:hey a<ret>", "a"),
    "of a short name": ("", ":alias global hey eval<ret>:hey 'echo a'<ret>", "a"),
    "with switches": ("", ":alias global hey echo<ret>:hey -n<ret>", "unknown switch: -n"),
    "an alias of a defined one": ("", ":def say 'echo hi'<ret>:alias global hey say<ret>:hey<ret>", "hi"),
    "before one that is defined": ("", ":def hey 'fail x'<ret>:alias global hey echo<ret>:hey a<ret>", "a"),
    "an alias counts before the table": ("", ":alias global echo fail<ret>:echo a; nop<ret>", "a"),
    "of itself": ("", ":alias global echo echo<ret>:echo a<ret>", "a"),
    "no alias of an alias": ("", ":alias global a echo; alias global b a<ret>:b c<ret>", "no such command: b"),
    "of nothing": ("", ":alias global a x<ret>:a<ret>", "no such command: a"),
    "the window's counts first": ("", ":alias global a fail; alias buffer a nop; alias window a echo<ret>:a b<ret>", "b"),
    "then that of the buffer": ("", ":alias global a fail; alias buffer a echo; alias window a nop; unalias window a<ret>:a b<ret>", "b"),
    "and of no other buffer": ("", ":alias buffer a echo<ret>:e f<ret>:a b<ret>", "no such command: a"),
    "no more": ("", ":alias global a echo; unalias global a<ret>:a b<ret>", "no such command: a"),
    "nothing to be taken away": ("", ":unalias window a<ret>", ""),
    "an alias takes three": ("", ":alias global a<ret>", COUNT),
    # maps
    "a map takes four": ("", ":map global normal a<ret>", COUNT),
    "unmap takes three": ("", ":unmap global normal<ret>", COUNT),
    "of no other buffer": ("", ":map buffer normal U ''<ret>:e f<ret>U", "nothing to redo"),
    "nor of its window": ("", ":map window normal U ''<ret>:e f<ret>U", "nothing to redo"),
    "which stays": ("", ":map window normal U ''<ret>:e f<ret>:b *scratch*<ret>U", ""),
    # macros
    "a macro of bad keys": ("", ":reg b 'ab<lt>x'<ret>\"bq", "bad key at 2"),
    "of no register": ("", "\"!q", "no such register: !"),
    "of an empty one": ("", "\"bq", ""),
    "of the first string": ("ab", ":reg b U l<ret>\"bq", "nothing to redo"),
    "recorded for what is only read": ("a", "\"%QlQ", "register is read only: %"),
    "for no register": ("a", "\"!QlQ", "no such register: !"),
    "ended by escape": ("a", "\"!Ql<esc>", "no such register: !"),
}

# what is typed first; a key or a command that is refused, what is typed behind it, and the status: behind it all is as without it
REFUSED = {
    "a scope of maps": (":map global normal w l<ret>", ":map nowhere nowhere nokey '<lt>'<ret>", "w", "no such scope: nowhere"),
    "a mode": (":map global normal w l<ret>", ":map global nowhere nokey '<lt>'<ret>", "w", "no such mode: nowhere"),
    "no key to be mapped": (":map global normal w l<ret>", ":map global normal '' '<lt>'<ret>", "w", "bad key at 0"),
    "two keys": (":map global normal w l<ret>", ":map global normal ww '<lt>'<ret>", "w", "bad key at 0"),
    "a key that is none": (":map global normal w l<ret>", ":map global normal w<lt>nope> '<lt>'<ret>", "w", "bad key at 1"),
    "keys that are none": (":map global normal w l<ret>", ":map global normal w 'll<lt>nope>'<ret>", "w", "bad key at 2"),
    "a scope to be unmapped": (":map global normal w l<ret>", ":unmap all x w<ret>", "w", "no such scope: all"),
    "a mode to be unmapped": (":map global normal w l<ret>", ":unmap global x ww<ret>", "w", "no such mode: x"),
    "two keys to be unmapped": (":map global normal w l<ret>", ":unmap global normal ww<ret>", "w", "bad key at 0"),
    "no key to be unmapped": (":map global normal w l<ret>", ":unmap global normal w<lt><ret>", "w", "bad key at 1"),
    "a scope of aliases": (":alias global a echo<ret>", ":alias all a fail<ret>", ":a b<ret>", "no such scope: all"),
    "a scope without": (":alias global a echo<ret>", ":unalias all a<ret>", ":a b<ret>", "no such scope: all"),
    "no number of words": (":def a 'echo b'<ret>", ":def -params x a 'echo c'<ret>", ":a<ret>", VALUE),
    "an empty one": (":def a 'echo b'<ret>", ":def -params '' a 'echo c'<ret>", ":a<ret>", VALUE),
    "one below nothing": (":def a 'echo b'<ret>", ":def -params -1 a 'echo c'<ret>", ":a<ret>", VALUE),
    "one without an end": (":def a 'echo b'<ret>", ":def -params 1.. a 'echo c'<ret>", ":a<ret>", VALUE),
    "neither": (":def a 'echo b'<ret>", ":def -params .. a 'echo c'<ret>", ":a<ret>", VALUE),
    "a switch before it": (":def a 'echo b'<ret>", ":def -x -params .. a 'echo c'<ret>", ":a<ret>", "unknown switch: -x"),
    "keys to be run": ("ia<esc>", ":exec 'ix<lt>esc><lt>nope>'<ret>", "l", "bad key at 7"),
    "keys of a macro": (":reg b 'ix<lt>esc><lt>nope>'<ret>", "3\"bq", "l", "bad key at 7"),
    "words of a defined one": (":def a 'exec ix<lt>esc>'<ret>", ":a b<ret>", "l", COUNT),
    "a text that isn't closed": ("ia<esc>", ":eval %{exec ix<lt>esc>; echo 'a}<ret>", "l", "unclosed at 19"),
    "a recording": (":reg a x<ret>", "\"%QlhQ", ":echo %reg{a}<ret>", "register is read only: %"),
}


def inside(kind, text):
    """A text of commands that runs another one, one deeper."""
    if kind == "evaluate-commands":
        return f"eval %{{{text}}}"
    if kind == "try":
        return f"try %{{{text}}}"
    return f"try fail catch %{{{text}}}"


def typed(text):
    """A text of commands as keys that a client strikes."""
    return ":" + text.replace("<", "<lt>") + "<ret>"


def nested(kind, depth, text="echo there"):
    for _ in range(depth):
        text = inside(kind, text)
    return typed(text)


def called(depth):
    """Commands each of which calls the one before it."""
    return typed("; ".join(["def d1 'echo there'", *(f"def d{n} d{n - 1}" for n in range(2, depth + 1))])) + typed(f"d{depth}")


def struck(depth):
    """Keys by which commands each of which has keys run call the one before it, and some texts around them."""
    defined = typed("; ".join(["def d1 'echo there'", *(f"def d{n} 'exec :d{n - 1}<ret>'" for n in range(2, 16))]))
    return defined + nested("evaluate-commands", depth - 29, "d15")


def played(depth):
    """Macros each of which runs the one before it, and some texts inside of them."""
    names = "abcdefghijklmnopqrstuvwxyz"
    first = typed("set-register a %{" + nested("evaluate-commands", depth - len(names)) + "}")
    return first + "".join(f":reg {name} '\"{before}q'<ret>" for before, name in zip(names, names[1:])) + "\"zq"


def mapped(depth):
    """A key that is mapped to keys that run a text, some deep."""
    return typed("map global normal z %{" + nested("try", depth - 1) + "}") + "z"


def filled(runs):
    """So many runs of a key, of four digits, and then texts that go one too deep."""
    text = "nop"
    for _ in range(MAX_DEPTH + 1):
        text = inside("evaluate-commands", text)
    return typed(f"exec {runs}h; {text}")


def doubled(levels, twice="{0}; {0}", first="nop"):
    """Commands each of which calls the one before it twice."""
    calls = [f"def d{n} '{twice.format(f'd{n - 1}')}'" for n in range(1, levels + 1)]
    return typed("; ".join([f"def d0 {first}", *calls])) + typed(f"d{levels}")


# what is typed, and the status: how deep it may be, how much may be run, and that neither takes long
LIMITS = {
    **{f"{kind}, as deep as may be": (nested(kind, MAX_DEPTH), "there") for kind in ("evaluate-commands", "try", "catch")},
    **{f"{kind}, one deeper": (nested(kind, MAX_DEPTH + 1), DEEP) for kind in ("evaluate-commands", "try", "catch")},
    "keys, as deep as may be": (struck(MAX_DEPTH), "there"),
    "keys, one deeper": (struck(MAX_DEPTH + 1), DEEP),
    "calls, as deep as may be": (called(MAX_DEPTH), "there"),
    "calls, one deeper": (called(MAX_DEPTH + 1), DEEP),
    "macros, as deep as may be": (played(MAX_DEPTH), "there"),
    "macros, one deeper": (played(MAX_DEPTH + 1), DEEP),
    "a mapped key, as deep as may be": (mapped(MAX_DEPTH), "there"),
    "a mapped key, one deeper": (mapped(MAX_DEPTH + 1), DEEP),
    "no keys, one deeper": (nested("evaluate-commands", MAX_DEPTH, "exec ''"), DEEP),
    "nothing deeper is tried": (nested("evaluate-commands", MAX_DEPTH, "try ''"), DEEP),
    "nor caught": (nested("evaluate-commands", MAX_DEPTH - 1, "try %{exec %{:eval nop<ret>}} catch 'echo x'"), DEEP),
    "itself": (":def me me<ret>:me<ret>", DEEP),
    "giving up isn't caught": (":def me me<ret>:try me catch 'echo a'<ret>", DEEP),
    "nor is what is spent": (f":try 'exec {MAX_UNITS}h' catch 'echo a'<ret>", SPENT),
    "a macro that runs itself": (":reg arobase q<ret>q", DEEP),
    "often": (":reg arobase qq<ret>999999q", DEEP),
    "a mapped key that types itself": (":map global normal z ':exec -with-maps z<lt>ret>'<ret>z", DEEP),
    "two commands that call one another": (":def one two; def two one<ret>:one<ret>", DEEP),
    "what was said before": (":def me 'echo a; me'<ret>:me<ret>", DEEP),
    "commands of a text": (f":eval '{'nop;' * (MAX_UNITS - 2)}'<ret>", ""),
    "one too many": (f":eval '{'nop;' * (MAX_UNITS - 1)}'<ret>", SPENT),
    "keys of a text": (f":exec '{'h' * (MAX_UNITS - 2)}'<ret>", ""),
    "one key too many": (f":exec '{'h' * (MAX_UNITS - 1)}'<ret>", SPENT),
    "a mapped key takes no unit": (f":map global normal z '{'h' * MAX_UNITS}'<ret>z", ""),
    "each of its keys takes one": (f":map global normal z '{'h' * (MAX_UNITS + 1)}'<ret>z", SPENT),
    "runs of a macro": (f":reg arobase h<ret>{MAX_UNITS // 2}q", ""),
    "one run too many": (f":reg arobase h<ret>{MAX_UNITS // 2 + 1}q", SPENT),
    "runs of no keys": (f":reg arobase ''<ret>{MAX_UNITS}q", ""),
    "one run of none too many": (f":reg arobase ''<ret>{MAX_UNITS + 1}q", SPENT),
    "as many as can be asked for": (":reg arobase ''<ret>999999q", SPENT),
    "a unit is taken before it is deep": (filled(MAX_UNITS - 7 - MAX_DEPTH), DEEP),
    "and is wanting first": (filled(MAX_UNITS - 6 - MAX_DEPTH), SPENT),
    "calls that double": (doubled(10), ""),
    "once more": (doubled(20), SPENT),
    "tries that fail": (doubled(12, "try {0} catch {0}", "fail"), SPENT),
    "macros that call two": (":reg b '\"cq\"cq'<ret>:reg c '\"dq\"dq'<ret>:reg d '999999\"eq'<ret>\"bq", SPENT),
}

# lines of clients; the mark of what each is drawn at the end
CLIENTS = {
    "a macro is everybody's": ([(0, "iabcd<esc>gg\"bQlQ"), (1, "\"bq\"bq")], ["a<b>cd\n", "ab<c>d\n"]),
    "a recording is one's own": ([(0, "iabcd<esc>gg\"bQ"), (1, "ll"), (0, "lQ"), (1, "\"bq")], ["a<b>cd\n", "abc<d>\n"]),
    "a map is everybody's": ([(0, "iabcd<esc>gg:map global normal w l<ret>w"), (1, "w")], ["a<b>cd\n", "a<b>cd\n"]),
    "that of a buffer too": ([(0, "iabcd<esc>gg:map buffer normal w l<ret>w"), (1, "w")], ["a<b>cd\n", "a<b>cd\n"]),
    "that of a window isn't": ([(0, "iabcd<esc>gg:map window normal w l<ret>w"), (1, "w")], ["a<b>cd\n", "[abc]<d>\n"]),
    "a command is everybody's": ([(0, "iabcd<esc>gg:def go 'exec ll'<ret>"), (1, ":go<ret>")], ["<a>bcd\n", "ab<c>d\n"]),
}


def statuses(kind, rows, program, report, seconds=None):
    """Each row in a process of its own, with the status of its last drawing, and how long that took where it may not take long."""
    for name, (text, keys, status) in rows.items():
        before = resource.getrusage(resource.RUSAGE_CHILDREN)
        ended = run_whole(program, ["-ui", "json"], keys_line(f"i{text}<esc>gg") + keys_line(keys))
        after = resource.getrusage(resource.RUSAGE_CHILDREN)
        found = last_drawing(ended.output)[2] if ended.status == 0 else ended.status
        report.check(f"{kind}: {name}: {keys[:80]}", status, found)
        took = after.ru_utime + after.ru_stime - before.ru_utime - before.ru_stime
        if seconds is not None and took > seconds:
            report.fail(f"{kind}: {name}", f"expected at most {seconds} s of a processor", f"came     {took:.2f} s")


def refusals(program, report):
    """What is refused changes nothing: what is typed behind it is drawn as it is without it."""
    for name, (first, refused, then, status) in REFUSED.items():
        lines = [keys_line(f"iab cd<esc>gg{first}"), keys_line(refused), keys_line(then)]
        with_it, without = (run_whole(program, ["-ui", "json"], b"".join(given)) for given in (lines, lines[::2]))
        report.check(f"nesting, refused: {name}: {refused}", status, last_drawing(run_whole(program, ["-ui", "json"], b"".join(lines[:2])).output)[2])
        report.check(f"nesting, refused: {name}: {then}", last_drawing(without.output), last_drawing(with_it.output))


def clients(replayer, report):
    """Clients of one session: what one records, maps and defines, as another one finds it."""
    for name, (lines, drawn) in CLIENTS.items():
        for number, wanted in enumerate(drawn):
            kinds = ["json" if place == number else "silent" for place in range(len(drawn))]
            given = b"".join(line(who, keys) for who, keys in lines) + line(number)
            ended = run_whole(replayer, kinds, given)
            report.check(f"nesting, clients: {name}: client {number}", wanted, last_drawing(ended.output)[0] if ended.status == 0 else ended.status)


def deep_in_threads(place, report):
    """A server's threads have stacks for what is as deep as it may be."""
    server = place.serve()
    client = server.client()
    client.next()
    for name in ("keys, as deep as may be", "keys, one deeper", "macros, as deep as may be", "a mapped key, one deeper"):
        keys, status = LIMITS[name]
        report.check(f"nesting, over a socket: {name}", status, last_drawing(client.play(keys))[2])
    client.close()


def run(program, replayer, server, report):
    for kind, rows in (("macros", MACROS), ("maps", MAPS), ("run", RUN)):
        play(f"nesting, {kind}", rows, program, report)
    statuses("nesting, recorded", {name: (text, f"{keys}:echo %reg{{b}}<ret>", status) for name, (text, keys, status) in RECORDED.items()}, program, report)
    statuses("nesting, texts", TEXTS, program, report)
    statuses("nesting, limits", {name: ("", *row) for name, row in LIMITS.items()}, program, report, MOST_SECONDS)
    refusals(program, report)
    clients(replayer, report)
    over_sockets(server, report, deep_in_threads)
