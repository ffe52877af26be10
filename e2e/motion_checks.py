"""Motions, from many places of a text, and keys that change a list of selections, in the rows and with the marks of the checks of edits."""
from edit_checks import play, play_tables

# a text that is typed; keys and the text that is then drawn, one line of keys after another
MOTIONS = {
    # steps and lines
    "a character at a time": ("é<ret>b", {
        "ggl": "é<\n>b\n",
        "ggll": "é\n<b>\n",
        "gg3ll": "é\nb<\n>",
        "gg2lh": "é<\n>b\n",
        "ggh": "<é>\nb\n",
    }),
    "to the same cell of other lines": ("abcdefghij<ret>a<tab>b<ret>漢字<ret><ret>e\u0301xyz<ret>end", {
        "gg9lj": "abcdefghij\na       b<\n>漢字\n\ne\u0301xyz\nend\n",
        "gg9l2j": "abcdefghij\na       b\n漢<字>\n\ne\u0301xyz\nend\n",
        "gg8lj": "abcdefghij\na       <b>\n漢字\n\ne\u0301xyz\nend\n",
        "gg3lj": "abcdefghij\na<       >b\n漢字\n\ne\u0301xyz\nend\n",
        "gg3l2j": "abcdefghij\na       b\n漢<字>\n\ne\u0301xyz\nend\n",
        "ggl2j": "abcdefghij\na       b\n<漢>字\n\ne\u0301xyz\nend\n",
        "gg13lk": "abcdefgh<i>j\na       b\n漢字\n\ne\u0301xyz\nend\n",
        "gg14lk": "abcdefghi<j>\na       b\n漢字\n\ne\u0301xyz\nend\n",
        "gg16l2j": "abcdefghij\na       b\n漢字\n\ne\u0301x<y>z\nend\n",
        "gg21l2k": "abcdefghij\na       b\n<漢>字\n\ne\u0301xyz\nend\n",
        "gg15l2j": "abcdefghij\na       b\n漢字\n\n<e>\u0301xyz\nend\n",
        "gg9l4j": "abcdefghij\na       b\n漢字\n\ne\u0301xy<z>\nend\n",
        "gg25lj": "abcdefghij\na       b\n漢字\n\ne\u0301xyz\n<e>nd\n",
        "ggk": "<a>bcdefghij\na       b\n漢字\n\ne\u0301xyz\nend\n",
        "gg19l<pagedown>": "abcdefghij\na       b\n漢字\n\ne\u0301xyz\n<e>nd\n",
        "gg26l<pageup>": "a<b>cdefghij\na       b\n漢字\n\ne\u0301xyz\nend\n",
    }),
    "by the tab stops of the window": ("abcdefgh<ret><tab>b", {
        ":set window tabstop 1<ret>gg4lj": "abcdefgh\n <b>\n",
        ":set window tabstop 2<ret>gg4lj": "abcdefgh\n  <b>\n",
        ":set window tabstop 3<ret>gg4lj": "abcdefgh\n   b<\n>",
        ":set window tabstop 4<ret>gg4lj": "abcdefgh\n    <b>\n",
        ":set window tabstop 5<ret>gg4lj": "abcdefgh\n<     >b\n",
        ":set window tabstop 64<ret>gg4lj": "abcdefgh\n<                                                                >b\n",
    }),
    # to characters and brackets
    "to characters": ("añb<ret>abé", {
        "ggfb": "[añ]<b>\nabé\n",
        "ggtb": "[a]<ñ>b\nabé\n",
        "gg2lfb": "añ[b\na]<b>é\n",
        "gg4ltb": "añb\n<a>bé\n",
        "gglfé": "a[ñb\nab]<é>\n",
        "ggf<ret>": "[añb]<\n>abé\n",
        "gg5lfb": "añb\na<b>é\n",
        "ggtx": "<a>ñb\nabé\n",
        "gg7lfé": "añb\nabé<\n>",
        "gg7l<a-f>b": "añb\na<b>[é\n]",
        "gg5l<a-f>b": "añ<b>[\nab]é\n",
        "gg5l<a-t>ñ": "añ<b>[\nab]é\n",
        "gg4l<a-t><ret>": "añb\n<a>bé\n",
        "gg2l<a-f>b": "añ<b>\nabé\n",
        "gg<a-t>a": "<a>ñb\nabé\n",
    }),
    "to the bracket that belongs to it": ("a{(b}<ret>)c}<lt><ret>[]]", {
        "ggm": "a[{(b]<}>\n)c}<\n[]]\n",
        "gglm": "a[{(b]<}>\n)c}<\n[]]\n",
        "gg2lm": "a{[(b}\n]<)>c}<\n[]]\n",
        "gg3lm": "a<{>[(b}]\n)c}<\n[]]\n",
        "gg4lm": "a<{>[(b}]\n)c}<\n[]]\n",
        "gg5lm": "a{(b}<\n>)c}<\n[]]\n",
        "gg6lm": "a{<(>[b}\n)]c}<\n[]]\n",
        "gg7lm": "a{(b}\n)<c>}<\n[]]\n",
        "gg9lm": "a{(b}\n)c}<<>\n[]]\n",
        "gg11lm": "a{(b}\n)c}<\n[[]<]>]\n",
        "gg12lm": "a{(b}\n)c}<\n<[>[]]]\n",
        "gg13lm": "a{(b}\n)c}<\n[]<]>\n",
        "gg14lm": "a{(b}\n)c}<\n[]]<\n>",
    }),
    "to that of brackets in brackets": ("<lt><lt>a><lt>b>><ret>((<ret>))x(", {
        "ggm": "[<<a><b>]<>>\n((\n))x(\n",
        "gglm": "<[<a]<>><b>>\n((\n))x(\n",
        "gg2lm": "<<<>[a>]<b>>\n((\n))x(\n",
        "gg4lm": "<<a>[<b]<>>>\n((\n))x(\n",
        "gg7lm": "<<>[<a><b>>]\n((\n))x(\n",
        "gg9lm": "<<a><b>>\n[((\n)]<)>x(\n",
        "gg10lm": "<<a><b>>\n([(\n]<)>)x(\n",
        "gg12lm": "<<a><b>>\n(<(>[\n)])x(\n",
        "gg13lm": "<<a><b>>\n<(>[(\n))]x(\n",
        "gg14lm": "<<a><b>>\n((\n))<x>(\n",
    }),
    # places
    "places with names": (" <tab>\u3000ab<ret><ret> <ret>c\u00a0d<ret>e", {
        "gg8lgk": "< >       \u3000ab\n\n \nc\u00a0d\ne\n",
        "gggj": "        \u3000ab\n\n \nc\u00a0d\n<e>\n",
        "ggge": "        \u3000ab\n\n \nc\u00a0d\ne<\n>",
        "gg4lgh": "< >       \u3000ab\n\n \nc\u00a0d\ne\n",
        "gg12lgh": "        \u3000ab\n\n \n<c>\u00a0d\ne\n",
        "gggl": "        \u3000a<b>\n\n \nc\u00a0d\ne\n",
        "gg6lgl": "        \u3000ab\n<\n> \nc\u00a0d\ne\n",
        "gg8lgl": "        \u3000ab\n\n< >\nc\u00a0d\ne\n",
        "gggi": "        \u3000<a>b\n\n \nc\u00a0d\ne\n",
        "gg4lgi": "        \u3000<a>b\n\n \nc\u00a0d\ne\n",
        "gg6lgi": "        \u3000ab\n<\n> \nc\u00a0d\ne\n",
        "gg7lgi": "        \u3000ab\n\n <\n>c\u00a0d\ne\n",
        "gg11lgi": "        \u3000ab\n\n \n<c>\u00a0d\ne\n",
        "gggt": "< >       \u3000ab\n\n \nc\u00a0d\ne\n",
        "gggc": "        \u3000ab\n\n \nc\u00a0d\n<e>\n",
        "gggb": "        \u3000ab\n\n \nc\u00a0d\n<e>\n",
        "gg8l1g": "< >       \u3000ab\n\n \nc\u00a0d\ne\n",
        "gg4g": "        \u3000ab\n\n \n<c>\u00a0d\ne\n",
        "gg999999g": "        \u3000ab\n\n \nc\u00a0d\n<e>\n",
    }),
    "to the ends of the line": ("añb<ret><ret>abé", {
        "ggl<a-h>": "<a>[ñ]b\n\nabé\n",
        "gg<a-h>": "<a>ñb\n\nabé\n",
        "gg3l<a-h>": "<a>[ñb\n]\nabé\n",
        "gg4l<a-h>": "añb\n<\n>abé\n",
        "gg8l<a-h>": "añb\n\n<a>[bé\n]",
        "ggl<a-l>": "a[ñ]<b>\n\nabé\n",
        "gg2l<a-l>": "añ<b>\n\nabé\n",
        "gg3l<a-l>": "añ<b>[\n]\nabé\n",
        "gg4l<a-l>": "añb\n<\n>abé\n",
        "gg5l<a-l>": "añb\n\n[ab]<é>\n",
    }),
    # words
    "word by word": ("foo, bar", {
        "gge": "[fo]<o>, bar\n",
        "ggee": "foo<,> bar\n",
        "ggeee": "foo,[ ba]<r>\n",
        "gg7lb": "foo, <b>[ar]\n",
        "gg7lbb": "foo<,>[ ]bar\n",
        "gg<a-w>": "[foo,]< >bar\n",
        "gg5l<a-b>": "<f>[oo, ]bar\n",
    }),
    "up to the next word": ("foo bar", {
        "ggw": "[foo]< >bar\n",
        "gg3lw": "foo [ba]<r>\n",
        "gg6lw": "foo ba<r>\n",
    }),
    "over all kinds of space": ("a \u00a0<tab>b", {
        "ggw": "a[ \u00a0]<     >b\n",
    }),
    "over letters, digits and marks": ("½_é—漢字", {
        "ggw": "[½_]<é>—漢字\n",
        "gg<a-w>": "[½_é—漢]<字>\n",
    }),
    "over empty lines to the next word": ("a<ret><ret>  b", {
        "ggw": "a\n\n[ ]< >b\n",
    }),
    "no next word": ("<ret><ret>", {
        "ggw": "<\n>\n\n",
    }),
    "over blanks to the end of a word": ("a  <ret>b", {
        "gge": "a[ ]< >\nb\n",
    }),
    "over empty lines to the end of a word": ("a<ret><ret>bc", {
        "gge": "a\n\n[b]<c>\n",
    }),
    "over a combining character": ("e\u0301a b", {
        "gge": "e<\u0301>a b\n",
        "gg<a-e>": "[e\u0301]<a> b\n",
    }),
    "no word behind it or before it": ("ab", {
        "gg2le": "ab<\n>",
        "ggb": "<a>b\n",
    }),
    "back to the start of a word": ("  a", {
        "gg2lb": "< >[ ]a\n",
    }),
    "back to a word of the line before, or to blanks": ("a<ret>  b", {
        "gg4lb": "a\n< >[ ]b\n",
    }),
    "back over empty lines": ("ab<ret><ret>c", {
        "gg4lb": "<a>[b]\n\nc\n",
    }),
    "back over wide characters": ("漢字 ", {
        "gg3lb": "<漢>[字 ]\n",
    }),
    "no word before it": ("<ret><ret>a", {
        "gg2lb": "\n\n<a>\n",
    }),
}

# keys that are typed after `i`, a text and `<esc>gg`; the text that is then drawn; the mode line; the status
LISTS = {
    # what is cut off
    "whole lines are left": ("ab<ret>cd<ret><ret>ef<ret>gh", [":select 1.1,1.2 4.1,1.3 4.2,5.3<ret><a-x>"], "ab\n<c>(d\n\n)ef\n[gh]<\n>", "5:3 normal 2/2", ""),
    "blanks are cut off": ("<tab>\u3000ab <ret><ret> c<ret> ", [":select -codepoint 4.2,4.1 3.3,1.1<ret>_"], "        \u3000<a>[b \n\n c]\n \n", "1:3 normal 1/1", ""),
    "blanks alone leave nothing": ("ab <ret><ret> c<ret> ", [":select 1.3,3.1 4.1,3.3<ret>_"], "ab[ \n\n]< >c<\n>( )\n", "3:1 normal 1/2", "nothing selected"),
    # parts and copies
    "parts end where lines end": ("ab<ret><ret>cd<ret>ef", [":select 3.2,1.2 4.1,4.3<ret><a-s>"], "a<b>(\n)<\n><c>(d)\n[ef]<\n>", "4:3 normal 4/4", ""),
    "a copy passes over lines that are too short": ("abc<ret>abc<ret><ret>ab<ret>abc<ret>abc", [":select 2.3,1.3<ret>C"], "ab<c>(\nabc)\n\nab<\n>[abc]\nabc\n", "4:3 normal 2/2", ""),
    # the main one
    "the first is dropped, and the last becomes main": ("abcdef", [":select 1.1,1.1 1.4,1.3 1.6,1.7<ret><a-,>"], "ab<c>(d)e[f]<\n>", "1:7 normal 2/2", ""),
    "behind the first is the last": ("abc", [":select 1.1,1.1 1.3,1.3<ret>)"], "<a>b<c>\n", "1:3 normal 2/2", ""),
    "before the first is the last": ("abc", [":select 1.1,1.1 1.3,1.3<ret>("], "<a>b<c>\n", "1:3 normal 2/2", ""),
    "behind the last is the first": ("abc", [":select 1.3,1.3 1.1,1.1<ret>)"], "<a>b<c>\n", "1:1 normal 1/2", ""),
    "before the last is the first": ("abc", [":select 1.3,1.3 1.1,1.1<ret>("], "<a>b<c>\n", "1:1 normal 1/2", ""),
}


def run(program, report):
    play_tables("motions", MOTIONS, program, report)
    play("lists", LISTS, program, report)
