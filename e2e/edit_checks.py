"""Keys that edit, and what their drawings then say: the text with its selections, the cursor's place, the status."""
import json

from drawings import keys_line
from processes import run_whole

# keys that are typed after `i`, a text and `<esc>gg`; the text that is then drawn; the mode line; the status.
# A drawn text has a tab as its cells, `<>` round a cursor or some side by side, `[]` round the rest of the main selection
# and `()` round that of the others. A cursor on a newline has its own marks.
ROWS = {
    # erasing and changing
    "a character is erased": ("abc", ["ld"], "a<c>\n", "1:2 normal 1/1", ""),
    "the newline of the text stays": ("abc", ["%d"], "<\n>", "1:1 normal 1/1", ""),
    "but the register has it": ("abc", ["%dp"], "\n[abc]<\n>", "2:4 normal 1/1", ""),
    "the last line goes whole": ("a<ret>b", ["jxd"], "a<\n>", "1:2 normal 1/1", ""),
    "the first of two lines": ("a<ret>b", ["xd"], "<b>\n", "1:1 normal 1/1", ""),
    "a character on each line is erased": ("ab<ret>cd", ["%<a-s>ghd"], "<b>\n<d>\n", "2:1 normal 2/2", ""),
    "what is erased side by side becomes one": ("abcd", ["L<a-S>d"], "<c>d\n", "1:1 normal 1/1", ""),
    "all lines, each by itself": ("a<ret>b", ["%<a-s>d"], "<\n>", "1:1 normal 1/1", ""),
    "an erased text is put elsewhere": ("abc", ["dlp"], "bc<a>\n", "1:3 normal 1/1", ""),
    "two characters, which the register has": ("abcd", ["lLd:echo %reg{dquote}<ret>"], "a<d>\n", "1:2 normal 1/1", "bc"),
    "up to the newline of the text": ("ab", ["lLd"], "a<\n>", "1:2 normal 1/1", ""),
    "all lines at once": ("a<ret>b", ["%d"], "<\n>", "1:1 normal 1/1", ""),
    "from one line to another": ("ab<ret>cd<ret>ef<ret>gh", [":select 1.2,3.1<ret>d"], "a<f>\ngh\n", "1:2 normal 1/1", ""),
    "the last two lines": ("ab<ret>cd<ret>ef", ["jJxd"], "ab<\n>", "1:3 normal 1/1", ""),
    "without the register": ("abc", ["yl<a-d>p"], "ac<a>\n", "1:3 normal 1/1", ""),
    "changed": ("abc", ["lcxy<esc>"], "axy<c>\n", "1:4 normal 1/1", ""),
    "while it is being changed": ("abc", ["lcxy"], "axy<c>\n", "1:4 insert 1/1", ""),
    "the changed text is in the register": ("abc", ["lcxy<esc>p"], "axyc<b>\n", "1:5 normal 1/1", ""),
    "changed without the register": ("abc", ["yl<a-c>x<esc>p"], "axc<a>\n", "1:4 normal 1/1", ""),
    "a turned selection is straight behind it": ("abcd", ["lLL<a-;>rx"], "a[xx]<x>\n", "1:4 normal 1/1", ""),
    # replacing by a character
    "all characters, the newline too": ("ab", ["%rx"], "[xx]<x>\n", "1:3 normal 1/1", ""),
    "a last line and its newline": ("a<ret>b", ["jxrz"], "a\n[zz]<\n>", "2:3 normal 1/1", ""),
    "by a tab": ("ab", ["r<tab>"], "<        >b\n", "1:1 normal 1/1", ""),
    "by a newline": ("ab", ["r<ret>"], "<\n>b\n", "1:1 normal 1/1", ""),
    "by a key that is no character": ("ab", ["r<right>"], "<a>b\n", "1:1 normal 1/1", ""),
    "not replaced after all": ("ab", ["r<esc>l"], "a<b>\n", "1:2 normal 1/1", ""),
    "a count makes no more of them": ("abcd", ["3rx"], "<x>bcd\n", "1:1 normal 1/1", ""),
    "by a wide character": ("ab", ["lr漢"], "a<漢>\n", "1:2 normal 1/1", ""),
    # putting
    "put behind": ("ab", ["ylp"], "ab<a>\n", "1:3 normal 1/1", ""),
    "put before": ("ab", ["ylP"], "a<a>b\n", "1:2 normal 1/1", ""),
    "a count, then the register": ("ab", ["\"ay", "3\"ap"], "aaa<a>b\n", "1:4 normal 1/1", ""),
    "the register, then a count": ("ab", ["\"ay", "\"a3p"], "aaa<a>b\n", "1:4 normal 1/1", ""),
    "put before, twice": ("ab", ["yl2P"], "a<a>ab\n", "1:2 normal 1/1", ""),
    "put behind the last newline": ("ab", ["ygep"], "ab\n[a]<\n>", "2:2 normal 1/1", ""),
    "lines that don't end in one are put in a line": ("x<ret>y<ret>z<ret>ab<ret>cd", ["JJyjp"], "x\ny\nz\na[x\ny\n]<z>b\ncd\n", "6:1 normal 1/1", ""),
    "a line goes below": ("ab<ret>c", ["xyp"], "ab\n[ab]<\n>c\n", "2:3 normal 1/1", ""),
    "a line goes above": ("ab<ret>c", ["lxyP"], "[ab]<\n>ab\nc\n", "1:3 normal 1/1", ""),
    "a line below the last": ("ab", ["xyp"], "ab\n[ab]<\n>", "2:3 normal 1/1", ""),
    "one text of a line makes lines of all": ("ab<ret>c", ["x<a-S>yp"], "ab\n<a><\n>c\n", "2:2 normal 2/2", ""),
    "and each has its newline at the text's end": ("ab", ["x<a-S>yp"], "ab\n(a)<\n><\n>", "3:1 normal 2/2", ""),
    "nothing is put": ("ab", ["\"zp"], "a<b>\n", "1:2 normal 1/1", ""),
    "nothing is put before": ("ab", ["l\"zP"], "a<b>\n", "1:2 normal 1/1", ""),
    "nothing is put behind the last newline": ("ab", ["ge\"zp"], "ab<\n>", "1:3 normal 1/1", ""),
    "one cursor puts the first of two": ("a<ret>b", ["%<a-s>_y,p"], "a\nb<a>\n", "2:2 normal 1/1", ""),
    "each replaced by its own text": ("ab<ret>cd", ["%<a-s>ghylR"], "a<a>\nc<c>\n", "2:2 normal 2/2", ""),
    "the last text again where no more are": ("ab<ret>cd<ret>ef", ["Cy", "%<a-s>ghR"], "<a>b\n<c>d\n<c>f\n", "3:1 normal 3/3", ""),
    "replaced by itself": ("ab", ["%y%R"], "[ab]<\n>", "1:3 normal 1/1", ""),
    "replaced by nothing": ("abc", ["l\"zR"], "a<c>\n", "1:2 normal 1/1", ""),
    "each replaced by its own string": ("abcd", [":reg a x é<ret>:select 1.1,1.1 1.2,1.2 1.4,1.3<ret>\"aR"], "<xéé>\n", "1:1 normal 1/3", ""),
    "by two characters, a newline and nothing": ("ab<ret>cd", ["glly:reg a xy '<c-r>\"' ''<ret>:select 1.1,1.1 1.2,1.2 2.2,2.2<ret>\"aR"], "[x]<y><\n>\nc<\n>", "1:2 normal 1/3", ""),
    "by nothing and one line": ("ab<ret>cd", ["glly:reg a '' 'z<c-r>\"'<ret>:select 1.1,1.1 1.2,2.3<ret>\"aR"], "[z]<\n>", "1:2 normal 1/1", ""),
    # before 32 characters, which wait beside a change of their line, before 33, which do not, and 40 at once
    "put before 32 characters": (f"a{'x' * 31}", [":reg a yz<ret>l\"aP"], f"a[y]<z>{'x' * 31}\n", "1:3 normal 1/1", ""),
    "put before 33 characters": (f"a{'x' * 32}", [":reg a yz<ret>l\"aP"], f"a[y]<z>{'x' * 32}\n", "1:3 normal 1/1", ""),
    "erased before 32 characters": (f"ay{'x' * 31}", ["ld"], f"a<x>{'x' * 30}\n", "1:2 normal 1/1", ""),
    "erased before 33 characters": (f"ay{'x' * 32}", ["ld"], f"a<x>{'x' * 31}\n", "1:2 normal 1/1", ""),
    "40 characters are put": ("ab", [f":reg a {'y' * 40}<ret>\"ap"], f"a[{'y' * 39}]<y>b\n", "1:41 normal 1/1", ""),
    # registers
    "a register of its own": ("ab", ["\"ayl\"ap"], "ab<a>\n", "1:3 normal 1/1", ""),
    "which is no other": ("ab", ["\"aylp"], "ab<\n>", "1:3 normal 1/1", ""),
    "erased into nowhere": ("abc", ["y\"_dp"], "b<a>c\n", "1:2 normal 1/1", ""),
    "nowhere has nothing": ("abc", ["\"_yl\"_p"], "ab<c>\n", "1:3 normal 1/1", ""),
    "the selections' own texts": ("a<ret>b", ["%<a-s>_\".p"], "a<a>\nb<b>\n", "2:2 normal 2/2", ""),
    "their numbers": ("a<ret>b", ["%<a-s>_\"#p"], "a<1>\nb<2>\n", "2:2 normal 2/2", ""),
    "the buffer's name": ("ab", ["\"%p"], "a[*scratch]<*>b\n", "1:10 normal 1/1", ""),
    "what was asked for": ("ab", [":nosuch<ret>", "\":p"], "a[nosuc]<h>b\n", "1:7 normal 1/1", ""),
    "a text over lines": ("añb<ret>c<ret>de", [":select -codepoint 1.2,3.1<ret>y:echo %reg{dquote}<ret>"], "a[ñb\nc\n]<d>e\n", "3:1 normal 1/1", "ñb\nc\nd"),
    "the whole text": ("añb<ret>c<ret>de", ["%y:echo %reg{dquote}<ret>"], "[añb\nc\nde]<\n>", "3:3 normal 1/1", "añb\nc\nde\n"),
    "one character": ("añb<ret>c<ret>de", ["jy:echo %reg{dquote}<ret>"], "añb\n<c>\nde\n", "2:1 normal 1/1", "c"),
    "the texts of two selections": ("aé<ret>cd", [":select 1.1,1.1 2.1,1.2<ret>y:echo %reg{dquote}<ret>"], "<aé>(\nc)d\n", "1:1 normal 1/2", "a é\nc"),
    "a capital is no register": ("ab", ["\"Ay"], "<a>b\n", "1:1 normal 1/1", "no such register: A"),
    "nor a digit": ("ab", ["3\"3y"], "<a>b\n", "1:1 normal 1/1", "no such register: 3"),
    "nor a mark": ("ab", ["\"!y"], "<a>b\n", "1:1 normal 1/1", "no such register: !"),
    "read by a key that puts": ("ab", ["\"!p"], "<a>b\n", "1:1 normal 1/1", "no such register: !"),
    "a key without a register takes no notice": ("ab", ["\"!l"], "a<b>\n", "1:2 normal 1/1", ""),
    "the name can't be set": ("ab", ["\"%y"], "<a>b\n", "1:1 normal 1/1", "register is read only: %"),
    "nor the texts, and nothing is erased": ("ab", ["\".d"], "<a>b\n", "1:1 normal 1/1", "register is read only: ."),
    "nor the numbers, and nothing is changed": ("ab", ["\"#c"], "<a>b\n", "1:1 normal 1/1", "register is read only: #"),
    "no register is named": ("abcdef", ["3\"<esc>l"], "a<b>cdef\n", "1:2 normal 1/1", ""),
    "a key that waits uses the register up": ("ab", ["\"ay\"afbp"], "ab<\n>", "1:3 normal 1/1", ""),
    # lines
    "two lines are joined": ("a<ret>b", ["%<a-j>"], "[a b]<\n>", "1:4 normal 1/1", ""),
    "with the blanks between": ("a<ret> <tab>b", ["<a-j>"], "<a> b\n", "1:1 normal 1/1", ""),
    "three lines, the last newline aside": ("a<ret>b<ret>c", ["%<a-j>"], "[a b c]<\n>", "1:6 normal 1/1", ""),
    "the last line has none to be joined": ("a<ret>b", ["j<a-j>"], "a\n<b>\n", "2:1 normal 1/1", ""),
    "one newline for two selections": ("ab<ret>c", ["x<a-S><a-j>"], "<a>b <c>\n", "1:4 normal 2/2", ""),
    "of three selections one is on the last line": ("a<ret> <tab>b<ret>c<ret><ret>d", [":select 2.4,1.1 3.1,3.1 5.1,5.2<ret><a-j>"], "<a>[ b\n]<c> \n(d)<\n>", "1:1 normal 1/3", ""),
    "lines are indented, but no empty one": ("a<ret><ret>b", ["%>"], "    [a\n\n    b]<\n>", "3:6 normal 1/1", ""),
    "an empty line isn't indented": ("a<ret><ret>b", ["j>"], "a\n<\n>b\n", "2:1 normal 1/1", ""),
    "a newline belongs to its line": ("a<ret>b", ["L>"], "    [a]<\n>b\n", "1:6 normal 1/1", ""),
    "a line is indented once": ("ab", ["x<a-S>3>"], "    <a>b<\n>", "1:7 normal 2/2", ""),
    "touched lines are indented by three columns": ("ab<ret><ret>c<ret>d", [":set window indentwidth 3<ret>:select 1.1,1.1 3.1,1.2<ret>>"], "   <ab>(\n\n   c)\nd\n", "1:4 normal 1/2", ""),
    "or by a tab": ("ab<ret><ret>c<ret>d", [":set window indentwidth 0<ret>:select 1.1,1.1 3.1,1.2<ret>>"], "        <ab>(\n\n        c)\nd\n", "1:2 normal 1/2", ""),
    "the indentation is taken away": ("      a", ["gl<lt>"], "  <a>\n", "1:3 normal 1/1", ""),
    "a tab is too wide to be taken": ("<tab>a", ["<lt>"], "<        >a\n", "1:1 normal 1/1", ""),
    "the spaces before a tab are taken": ("  <tab>a", ["<lt>"], "<        >a\n", "1:1 normal 1/1", ""),
    "a cursor in what is taken": ("      a", ["lll<lt>"], "< > a\n", "1:1 normal 1/1", ""),
    "cursors are aligned by cells": ("<tab>b<ret>aab", ["lC&"], "        <b>\na       <a>b\n", "2:9 normal 2/2", ""),
    "and not the other ends": ("a<ret>bcd", ["%<a-s>_&"], "  <a>\n[bc]<d>\n", "2:3 normal 2/2", ""),
    "two on one line aren't aligned": ("ab", ["x<a-S>&"], "<a>b<\n>", "1:3 normal 2/2", "align needs one selection per line"),
    "nor are two that begin on one": ("<tab>b<ret>aab", [":select 1.2,1.2 1.3,2.2<ret>&"], "        <b>(\na)<a>b\n", "1:2 normal 1/2", "align needs one selection per line"),
    # going round
    "the ends of a line change places": ("abc", ["<a-l><a-S><a-)>"], "<c>b<a>\n", "1:3 normal 2/2", ""),
    "each text goes on": ("a<ret>b<ret>c", ["%<a-s>gh<a-)>"], "<c>\n<a>\n<b>\n", "3:1 normal 3/3", ""),
    "each text goes back": ("a<ret>b<ret>c", ["%<a-s>gh<a-(>"], "<b>\n<c>\n<a>\n", "3:1 normal 3/3", ""),
    "texts of unlike lengths": ("aa<ret>b", ["%<a-s>_<a-)>"], "<b>\n[a]<a>\n", "2:2 normal 2/2", ""),
    # insert mode and the ways into it
    "typed into an empty text": ("", ["ihi<esc>"], "hi<\n>", "1:3 normal 1/1", ""),
    "turned for insert mode": ("abc", ["%i<del>"], "<b>[c\n]", "1:1 insert 1/1", ""),
    "the newline of the text isn't erased": ("a", ["li<del><esc>"], "a<\n>", "1:2 normal 1/1", ""),
    "an empty last line is": ("a<ret>", ["ji<del><esc>"], "a<\n>", "1:2 normal 1/1", ""),
    "at both ends": ("abc", ["<a-l><a-S>i<del>"], "<b><\n>", "1:2 insert 2/2", ""),
    "back one": ("abc", ["lli<backspace><esc>"], "a<c>\n", "1:2 normal 1/1", ""),
    "nothing is before the first": ("abc", ["i<backspace><esc>"], "<a>bc\n", "1:1 normal 1/1", ""),
    "back over a newline, but not from the first": ("a<ret>b", ["%<a-s>ghi<backspace><esc>"], "<ab>\n", "1:2 normal 2/2", ""),
    "a register while typing": ("xy", ["<a-l>d", "i<c-r>\"Z"], "xyZ<\n>", "1:4 insert 1/1", ""),
    "to each cursor its own text": ("a<ret>b", ["%<a-s>ghyi<c-r>\"<esc>"], "a<a>\nb<b>\n", "2:2 normal 2/2", ""),
    "nothing at each cursor": ("abcd", [":select 1.1,1.1 1.2,1.2 1.4,1.3<ret>i<c-r>z"], "<abc>(d)\n", "1:1 insert 1/3", ""),
    "a line while typing": ("x<ret>ab<ret>cd", ["xygei<c-r>\"<esc>"], "x\nab\ncdx\n<\n>", "4:1 normal 1/1", ""),
    "a newline before a line": ("ab<ret>cd", ["ji<ret><esc>"], "ab\n\n<c>d\n", "3:1 normal 1/1", ""),
    "no such register while typing": ("ab", ["i<c-r>!"], "<a>b\n", "1:1 insert 1/1", "no such register: !"),
    "typing goes on then": ("ab", ["i<c-r>!x<esc>"], "x<a>b\n", "1:2 normal 1/1", ""),
    "no register after all": ("ab", ["i<c-r><esc>x"], "x<a>b\n", "1:2 insert 1/1", ""),
    "to the right while typing": ("abc", ["i<right>x<esc>"], "ax<b>c\n", "1:3 normal 1/1", ""),
    "to the left while typing": ("abc", ["lli<left>x<esc>"], "ax<b>c\n", "1:3 normal 1/1", ""),
    "down and up while typing": ("ab<ret>cd", ["li<down>x<up>y<esc>"], "ay<b>\ncxd\n", "1:3 normal 1/1", ""),
    "the ends of the line while typing": ("abc", ["li<home>x<end>y<esc>"], "xabcy<\n>", "1:6 normal 1/1", ""),
    "behind the cursor": ("abc", ["ax<esc>"], "[a]<x>bc\n", "1:2 normal 1/1", ""),
    "behind the cursor, a letter that is a key too": ("abc", ["al<esc>"], "[a]<l>bc\n", "1:2 normal 1/1", ""),
    "while it is typed": ("abc", ["ax"], "[ax]<b>c\n", "1:3 insert 1/1", ""),
    "behind the text's end": ("", ["ax<esc>"], "[\n]<x>\n", "2:1 normal 1/1", ""),
    "behind neighbours": ("abc", ["L<a-S>a"], "[ab]<c>\n", "1:3 insert 1/1", ""),
    "and back from there": ("abc", ["L<a-S>ax<esc>"], "[ab]<x>c\n", "1:3 normal 1/1", ""),
    "no way back from a single character": ("abc", ["a<right><esc>"], "ab<c>\n", "1:3 normal 1/1", ""),
    "before an indented line": ("  ab", ["glIx<esc>"], "  x<a>b\n", "1:4 normal 1/1", ""),
    "before the first of two indented lines": ("<tab>a<ret> b", ["%Ix<esc>"], "        x<a>\n b\n", "1:3 normal 1/1", ""),
    "before the end of blanks": ("  ", ["Ix<esc>"], "  x<\n>", "1:4 normal 1/1", ""),
    "behind an indented line": ("  ab<ret>c", ["Ax<esc>"], "  abx<\n>c\n", "1:6 normal 1/1", ""),
    "a character of two bytes behind a line": ("ab", ["Aé<esc>"], "abé<\n>", "1:4 normal 1/1", ""),
    "behind the last of two lines": ("  ab<ret>c", ["%Ax<esc>"], "  ab\ncx<\n>", "2:3 normal 1/1", ""),
    "a line below": ("a", ["oc<esc>"], "a\nc<\n>", "2:2 normal 1/1", ""),
    "a line below an indented one": ("  ab<ret>c", ["ox<esc>"], "  ab\nx<\n>c\n", "2:2 normal 1/1", ""),
    "a line above an indented one": ("a<ret>  b", ["jOx<esc>"], "a\nx<\n>  b\n", "2:2 normal 1/1", ""),
    "two lines above one": ("ab", ["x<a-S>O"], "<\n><\n>ab\n", "2:1 insert 2/2", ""),
    "two lines below one": ("ab", ["x<a-S>ox<esc>"], "ab\nx<\n>x<\n>", "3:2 normal 2/2", ""),
    "a line below one and below two": ("ab<ret>c", [":select 1.1,1.1 2.1,1.2<ret>o"], "ab\n<\n>c\n<\n>", "2:1 insert 1/2", ""),
    "and above them": ("ab<ret>c", [":select 1.1,1.1 2.1,1.2<ret>O"], "<\n><\n>ab\nc\n", "1:1 insert 1/2", ""),
    # each of these taken back: a cursor for each change, and the main one at the last
    "erased, and back": ("abc", ["ldu"], "a<b>c\n", "1:2 normal 1/1", ""),
    "erased, back and again": ("abc", ["lduU"], "a<c>\n", "1:2 normal 1/1", ""),
    "all erased, and back": ("abc", ["%du"], "[ab]<c>\n", "1:3 normal 1/1", ""),
    "all lines erased, and back": ("a<ret>b", ["%du"], "[a\n]<b>\n", "2:1 normal 1/1", ""),
    "erased from one line to another, and back": ("ab<ret>cd<ret>ef<ret>gh", [":select 1.2,3.1<ret>du"], "a[b\ncd\n]<e>f\ngh\n", "3:1 normal 1/1", ""),
    "the last two lines erased, and back": ("ab<ret>cd<ret>ef", ["jJxdu"], "ab\n[cd\nef]<\n>", "3:3 normal 1/1", ""),
    "a last line erased, and back": ("a<ret>b", ["jxdu"], "a\n[b]<\n>", "2:2 normal 1/1", ""),
    "erased without the register, and back": ("abc", ["l<a-d>u"], "a<b>c\n", "1:2 normal 1/1", ""),
    "changed, and back": ("abc", ["lcx<esc>u"], "a<bc>\n", "1:2 normal 1/2", ""),
    "changed without the register, and back": ("abc", ["l<a-c><esc>u"], "a<b>c\n", "1:2 normal 1/1", ""),
    "another character, and back": ("abc", ["lrxu"], "a<bc>\n", "1:2 normal 1/2", ""),
    "all characters, and back": ("ab", ["%rxu"], "[a]<b><\n>", "1:2 normal 1/2", ""),
    "a last line replaced, and back": ("a<ret>b", ["jxrzu"], "a<\n>[b]<\n>", "2:2 normal 2/2", ""),
    "put behind, and back": ("ab", ["ypu"], "a<b>\n", "1:2 normal 1/1", ""),
    "put before, and back": ("ab", ["yPu"], "<a>b\n", "1:1 normal 1/1", ""),
    "put behind the last newline, and back": ("ab", ["ygepu"], "ab<\n>", "1:3 normal 1/1", ""),
    "and again": ("ab", ["ygepuU"], "ab\n[a]<\n>", "2:2 normal 1/1", ""),
    "lines put in a line, and back": ("x<ret>y<ret>z<ret>ab<ret>cd", ["JJyjpu"], "x\ny\nz\na<b>\ncd\n", "4:2 normal 1/1", ""),
    "back and again": ("x<ret>y<ret>z<ret>ab<ret>cd", ["JJyjpuU"], "x\ny\nz\na[x\ny\n]<z>b\ncd\n", "6:1 normal 1/1", ""),
    "a put for each count is one group": ("ab", ["y3pu"], "a<b>\n", "1:2 normal 1/1", ""),
    "replaced, and back": ("abc", ["ylRu"], "a<bc>\n", "1:2 normal 1/2", ""),
    "the newline of the text replaced by one makes no group": ("ab", ["gllr<ret>u"], "<\n>", "1:1 normal 1/1", ""),
    "joined, and back": ("a<ret>b", ["<a-j>u"], "a<\n><b>\n", "1:2 normal 1/2", ""),
    "indented, and back": ("a", [">u"], "<a>\n", "1:1 normal 1/1", ""),
    "unindented, and back": ("      a", ["<lt>u"], "[   ]< >  a\n", "1:4 normal 1/1", ""),
    "nothing unindented makes no group": ("<tab>a", ["<lt>u"], "<\n>", "1:1 normal 1/1", ""),
    "aligned, and back": ("<tab>b<ret>aab", ["lC&u"], "        b\na<a>b\n", "2:2 normal 1/1", ""),
    "one text that goes to its own place is a change": ("ab", ["<a-)>u"], "<ab>\n", "1:1 normal 1/2", ""),
    "behind the cursor, and back": ("abc", ["ax<esc>u"], "a<b>c\n", "1:2 normal 1/1", ""),
    "before a line, and back": ("  a", ["Ix<esc>u"], "  <a>\n", "1:3 normal 1/1", ""),
    "behind a line, and back": ("ab", ["Ax<esc>u"], "ab<\n>", "1:3 normal 1/1", ""),
    "a line below, and back": ("a", ["oc<esc>u"], "a<\n>", "1:2 normal 1/1", ""),
    "a line above, and back": ("a", ["Ox<esc>u"], "<a>\n", "1:1 normal 1/1", ""),
    "a register while typing, and back": ("ab", ["yi<c-r>\"<esc>u"], "<a>b\n", "1:1 normal 1/1", ""),
    "erased while typing, and back": ("abc", ["li<backspace><esc>u"], "<a>bc\n", "1:1 normal 1/1", ""),
    "two letters are one group": ("", ["iab<esc>u"], "<\n>", "1:1 normal 1/1", ""),
    # ways in the history: node 1 is the text with an `a`, node 2 that with a `b`
    "over the common ancestor": ("", ["ia<esc>uib<esc><c-k>"], "<a><\n>", "1:1 normal 1/2", ""),
    "to the ancestor": ("", ["ia<esc>uib<esc>2<c-k>"], "<\n>", "1:1 normal 1/1", ""),
    "to where it was come back from last": ("", ["ia<esc>uib<esc>2<c-k>U"], "<a>\n", "1:1 normal 1/1", ""),
    "over the ancestor the other way": ("", ["ia<esc>uib<esc>2<c-k>U<c-j>"], "<b><\n>", "1:1 normal 1/2", ""),
    "undone there": ("", ["ia<esc>uib<esc>2<c-k>U<c-j>u"], "<\n>", "1:1 normal 1/1", ""),
    "and made again": ("", ["ia<esc>uib<esc>2<c-k>U<c-j>uU"], "<b>\n", "1:1 normal 1/1", ""),
    "above the last node is none": ("", ["ia<esc>uib<esc><c-j>"], "b<\n>", "1:2 normal 1/1", "no such undo node"),
    # lines of characters that take a byte each, and of wide ones
    "the first wide character of a line": ("abc", ["li漢<esc>"], "a漢<b>c\n", "1:3 normal 1/1", ""),
    "at the begin of a line of 20 bytes": ("01234567890123456789", ["i漢<esc>"], "漢<0>1234567890123456789\n", "1:2 normal 1/1", ""),
    "at the end of one of 40": ("0123456789012345678901234567890123456789", ["A漢<esc>"], "0123456789012345678901234567890123456789漢<\n>", "1:42 normal 1/1", ""),
    "in the middle of one of 80": ("01234567890123456789012345678901234567890123456789012345678901234567890123456789", ["40li漢字<esc>"], "0123456789012345678901234567890123456789漢字<0>12345678901234567890123456789012345", "1:43 normal 1/1", ""),
    "a character of one byte and then a wide one": ("abc", ["Aé漢<esc>"], "abcé漢<\n>", "1:6 normal 1/1", ""),
    "the last character of 255 and the first of 256": ("abc", ["lcÿĀ<esc>"], "aÿĀ<c>\n", "1:4 normal 1/1", ""),
    "a wide character goes again": ("ab漢c", ["lld"], "ab<c>\n", "1:3 normal 1/1", ""),
    "a line of bytes gets a wide one's end": ("ab<ret>漢c", ["gg<a-j>"], "<a>b 漢c\n", "1:1 normal 1/1", ""),
    "a wide line gets the end of one of bytes": ("漢a<ret>bc", ["gg<a-j>"], "<漢>a bc\n", "1:1 normal 1/1", ""),
    "a wide line is parted": ("ab漢cd", ["lli<ret><esc>"], "ab\n<漢>cd\n", "2:1 normal 1/1", ""),
    "and put together again": ("ab漢cd", ["lli<ret><esc>u"], "ab<漢>cd\n", "1:3 normal 1/1", ""),
    "erased over two lines": ("ab漢<ret>cdé", [":select 1.2,2.1<ret>d"], "a<d>é\n", "1:2 normal 1/1", ""),
    "a put text with wide lines": ("ab<ret>漢<ret>c", ['%y"_dP'], "[ab\n漢\nc]<\n>\n", "3:2 normal 1/1", ""),
    "wide and narrow lines exchanged": ("ab<ret>漢é", [":select 1.1,1.2 2.1,2.4<ret><a-)>"], "[漢]<é>\n(a)<b>\n", "1:2 normal 1/2", ""),
    "a search in both kinds of lines": ("aé<ret>漢é", ["/é<ret>n"], "aé\n漢<é>\n", "2:2 normal 1/1", ""),
    "matches in both kinds of lines": ("aéb<ret>漢éb", ["%s\\w<ret>"], "<aéb>\n<漢éb>\n", "2:3 normal 6/6", ""),
    "a column behind a character of two bytes": ("éab<ret>cdef", ["gllj"], "éab\ncde<f>\n", "2:4 normal 1/1", ""),
    "the byte of one in a line of bytes": ("éab", [":select 1.2,1.3<ret>"], "[é]<a>b\n", "1:2 normal 1/1", ""),
}

# a text that is typed; keys and the text that is then drawn, one line of keys after another
TABLES = {
    "lines are joined and split": ("abcdef<ret>gh<ret>ij<ret>kl", {
        "ggglld": "abcdef<g>h\nij\nkl\n",
        ":select 1.3,2.1<ret>d": "ab<j>\nkl\n",
        "hix<ret>yz<ret><esc>": "ax\nyz\n<b>j\nkl\n",
        "jli<ret><esc>": "ax\nyz\nbj\nk\n<l>\n",
        ":select 2.3,4.2<ret>d": "ax\nyz<l>\n",
        "ggi<ret><ret><esc>": "\n\n<a>x\nyzl\n",
        "ggJd": "<a>x\nyzl\n",
    }),
}

MARKS = {("white", "blue"): "[]", ("black", "blue"): "()", ("black", "white"): "<>", ("black", "cyan"): "<>"}


def marked(lines):
    """The text of drawn lines, with marks round what is selected."""
    cells = [(c, (atom["face"]["fg"], atom["face"]["bg"])) for atoms in lines for atom in atoms for c in atom["contents"]]
    text, before = "", ""
    for place, (c, colours) in enumerate(cells):
        marks = MARKS.get(colours, "")
        apart = marks != before or (marks == "<>" and "\n" in (c, cells[place - 1][0]))
        text += (before[1:] + marks[:1] if apart else "") + c
        before = marks
    return text + before[1:]


def read_drawing(lines):
    """The marked text, the mode line and the status of the lines of a drawing."""
    requests = [json.loads(line) for line in lines]
    plain = lambda atoms: "".join(atom["contents"] for atom in atoms)
    named = {request["method"]: request["params"] for request in requests}
    status, mode, _ = named["draw_status"]
    return marked(named["draw"][0]), plain(mode), plain(status)


def last_drawing(output):
    """The last drawing of an output."""
    return read_drawing(output.splitlines()[-4:])


def play(kind, rows, program, report):
    """Each row in a process of its own."""
    for name, (text, keys, drawn, mode, status) in rows.items():
        ended = run_whole(program, ["-ui", "json"], b"".join([keys_line(f"i{text}<esc>gg"), *map(keys_line, keys)]))
        found = last_drawing(ended.output) if ended.status == 0 else ended.status
        report.check(f"{kind}: {name}: {''.join(keys)}", (drawn, f"*scratch* {mode} - client0", status), found)


def play_tables(kind, tables, program, report):
    """Each table in a process of its own, in which a text is typed, and then the keys of its rows, each in a line of its own. No status is told."""
    for name, (text, rows) in tables.items():
        ended = run_whole(program, ["-ui", "json"], b"".join([keys_line(f"i{text}<esc>"), *map(keys_line, rows)]))
        lines = ended.output.splitlines()[-4 * len(rows):]
        for place, (keys, drawn) in enumerate(rows.items()):
            found = read_drawing(lines[4 * place:][:4])[::2] if ended.status == 0 else ended.status
            report.check(f"{kind}: {name}: {keys}", (drawn, ""), found)


def run(program, report):
    play("edits", ROWS, program, report)
    play_tables("edits", TABLES, program, report)
