"""Keys that select objects, and what their drawings then say, in the rows and with the marks of the checks of edits."""
from edit_checks import play, play_tables

# keys that are typed after `i`, a text and `<esc>gg`; the text that is then drawn; the mode line; the status
ROWS = {
    # brackets and quotes
    "between brackets": ("f(a, b)", ["lll<a-i>b"], "f([a, ]<b>)\n", "1:6 normal 1/1", ""),
    "with the brackets": ("f(a, b)", ["lll<a-i>b", "<a-a>b"], "f[(a, b]<)>\n", "1:7 normal 1/1", ""),
    "from a bracket": ("(ab)", ["<a-i>("], "([a]<b>)\n", "1:3 normal 1/1", ""),
    "the inner pair": ("{a{b}}", ["lll<a-i>B"], "{a{<b>}}\n", "1:4 normal 1/1", ""),
    "nothing is between": ("[]", ["<a-i>r"], "<[>]\n", "1:1 normal 1/1", ""),
    "over lines": ("<lt>a<ret>b>", ["l<a-a>a"], "[<a\nb]<>>\n", "2:2 normal 1/1", ""),
    "an unmatched bracket is passed over": ("((a)", ["ll<a-a>)"], "([(a]<)>\n", "1:4 normal 1/1", ""),
    "quotes": ("x 'y' z", ["lll<a-a>q"], "x ['y]<'> z\n", "1:5 normal 1/1", ""),
    "paired from the left": ("\"a\" b \"c\"", ["llll<a-i>Q"], "\"a\" <b> \"c\"\n", "1:5 normal 1/1", ""),
    # words, numbers, blanks
    "a word": ("foo bar", ["<a-i>w"], "[fo]<o> bar\n", "1:3 normal 1/1", ""),
    "a word with the blanks behind it": ("foo bar", ["<a-a>w"], "[foo]< >bar\n", "1:4 normal 1/1", ""),
    "a word with marks": ("a.b c", ["<a-i><a-w>"], "[a.]<b> c\n", "1:3 normal 1/1", ""),
    "a number with its sign": ("a -12", ["gl<a-a>n"], "a [-1]<2>\n", "1:5 normal 1/1", ""),
    "blanks and newlines": ("a <ret> b", ["l<a-a> "], "a[ \n]< >b\n", "2:1 normal 1/1", ""),
    # lines
    "a paragraph": ("a<ret>b<ret><ret>c", ["<a-i>p"], "[a\nb]<\n>\nc\n", "2:2 normal 1/1", ""),
    "a sentence": ("ab. cd", ["lll<a-i>s"], "[ab]<.> cd\n", "1:3 normal 1/1", ""),
    "lines by their indentation": ("c<ret>  a<ret>  b", ["j<a-i>i"], "c\n[  a\n  b]<\n>", "3:4 normal 1/1", ""),
    # lists and waiting
    "each its own, or none": ("12<ret>ab<ret>34", ["%<a-s>gh<a-i>n"], "(1)<2>\n<a>b\n[3]<4>\n", "3:2 normal 3/3", ""),
    "a key that names none is used up": ("abcd", ["<a-i>xl"], "a<b>cd\n", "1:2 normal 1/1", ""),
    "not selected after all": ("abcd", ["<a-a><esc>l"], "a<b>cd\n", "1:2 normal 1/1", ""),
    "a count makes no more of it": ("abcd ef", ["3<a-i>wl"], "abcd< >ef\n", "1:5 normal 1/1", ""),
    "it waits for the next line": ("foo bar", ["<a-i>", "w"], "[fo]<o> bar\n", "1:3 normal 1/1", ""),
}

# a text that is typed; keys and the text that is then drawn, one line of keys after another
TABLES = {
    # words, numbers, blanks
    "words and marks": ("foo, bar <ret>x", {
        "ggl<a-i>w": "[fo]<o>, bar \nx\n",
        "ggl<a-i><a-w>": "[foo]<,> bar \nx\n",
        "ggl<a-a><a-w>": "[foo,]< >bar \nx\n",
        "gg6l<a-a>w": "foo, [bar]< >\nx\n",
        "gg3l<a-i>w": "foo<,> bar \nx\n",
        "gg9l<a-a><a-w>": "foo, bar <\n>x\n",
    }),
    "numbers and signs": ("-10<ret>20", {
        "gg2l<a-i>n": "-[1]<0>\n20\n",
        "gg2l<a-a>n": "[-1]<0>\n20\n",
        "gg5l<a-a>n": "-10\n[2]<0>\n",
        "gg<a-a>n": "<->10\n20\n",
    }),
    "blanks and newlines": ("a <ret><tab>b<ret>", {
        "ggl<a-i> ": "a< >\n        b\n\n",
        "ggl<a-a> ": "a[ \n]<        >b\n\n",
        "gg2l<a-i> ": "a <\n>        b\n\n",
        "gg6l<a-a> ": "a \n        b[\n]<\n>",
        "gg<a-a> ": "<a> \n        b\n\n",
    }),
    # lines
    "paragraphs": ("a<ret><ret>b<ret>c<ret><ret><ret>d", {
        "gg4l<a-i>p": "a\n\n[b\nc]<\n>\n\nd\n",
        "gg4l<a-a>p": "a\n\n[b\nc\n\n]<\n>d\n",
        "gg9l<a-a>p": "a\n\nb\nc\n\n\n[d]<\n>",
        "gg2l<a-i>p": "a\n<\n>b\nc\n\n\nd\n",
        "gg7l<a-a>p": "a\n\nb\nc\n<\n>\nd\n",
    }),
    "lines by their indentation": ("a<ret> b<ret><ret><tab>c<ret>d", {
        "gg3l<a-i>i": "a\n[ b\n\n        c]<\n>d\n",
        "gg7l<a-i>i": "a\n b\n\n[        c]<\n>d\n",
        "gg7l<a-a>i": "a\n b\n[\n        c]<\n>d\n",
        "gg<a-a>i": "[a\n b\n\n        c\nd]<\n>",
        "gg5l<a-a>i": "a\n b\n<\n>        c\nd\n",
    }),
    "sentences": ("ab. cd<ret><ret> 3.5! e<ret>f<ret>", {
        "gg3l<a-i>s": "[ab]<.> cd\n\n 3.5! e\nf\n\n",
        "gg<a-a>s": "[ab.]< >cd\n\n 3.5! e\nf\n\n",
        "gg6l<a-i>s": "ab. [c]<d>\n\n 3.5! e\nf\n\n",
        "gg4l<a-a>s": "ab. [cd\n]<\n> 3.5! e\nf\n\n",
        "gg7l<a-i>s": "ab. cd\n<\n> 3.5! e\nf\n\n",
        "gg10l<a-i>s": "ab. cd\n\n[ 3.5]<!> e\nf\n\n",
        "gg17l<a-i>s": "ab. cd\n\n 3.5! [e\n]<f>\n\n",
        "gg14l<a-a>s": "ab. cd\n\n 3.5! [e\nf\n]<\n>",
    }),
    # brackets and quotes
    "brackets": ("f(a, b)<ret>((x)y) ( {<ret>[1]}<lt>>", {
        "gg3l<a-i>b": "f([a, ]<b>)\n((x)y) ( {\n[1]}<>\n",
        "gg3l<a-a>b": "f[(a, b]<)>\n((x)y) ( {\n[1]}<>\n",
        "gg<a-a>b": "<f>(a, b)\n((x)y) ( {\n[1]}<>\n",
        "gg10l<a-a>b": "f(a, b)\n([(x]<)>y) ( {\n[1]}<>\n",
        "gg12l<a-a>b": "f(a, b)\n[((x)y]<)> ( {\n[1]}<>\n",
        "gg15l<a-a>b": "f(a, b)\n((x)y) <(> {\n[1]}<>\n",
        "gg20l<a-i>B": "f(a, b)\n((x)y) ( {[\n[1]<]>}<>\n",
        "gg20l<a-i>r": "f(a, b)\n((x)y) ( {\n[<1>]}<>\n",
        "gg23l<a-i>a": "f(a, b)\n((x)y) ( {\n[1]}<<>>\n",
        "gg24l<a-a>a": "f(a, b)\n((x)y) ( {\n[1]}[<]<>>\n",
    }),
    "quotes": ("x'a'y'b'<ret>\"\" `c`<ret>'d", {
        "gg2l<a-i>q": "x'<a>'y'b'\n\"\" `c`\n'd\n",
        "gg3l<a-a>q": "x['a]<'>y'b'\n\"\" `c`\n'd\n",
        "gg4l<a-a>q": "x'a'<y>'b'\n\"\" `c`\n'd\n",
        "gg6l<a-a>q": "x'a'y['b]<'>\n\"\" `c`\n'd\n",
        "gg9l<a-i>Q": "x'a'y'b'\n<\">\" `c`\n'd\n",
        "gg10l<a-a>Q": "x'a'y'b'\n[\"]<\"> `c`\n'd\n",
        "gg12l<a-i>g": "x'a'y'b'\n\"\" `<c>`\n'd\n",
        "gg17l<a-a>q": "x'a'y'b'\n\"\" `c`\n'<d>\n",
    }),
    # each kind
    "one text for many kinds": ("a-1  <ret><ret> x", {
        "gg<a-i>w": "<a>-1  \n\n x\n",
        "gg<a-a><a-w>": "[a-1 ]< >\n\n x\n",
        "gg2l<a-a>n": "a[-]<1>  \n\n x\n",
        "gg3l<a-i> ": "a-1[ ]< >\n\n x\n",
        "gg3l<a-a> ": "a-1[  \n\n]< >x\n",
        "gg2l<a-a>p": "[a-1  \n]<\n> x\n",
        "gg8l<a-i>i": "a-1  \n\n[ x]<\n>",
        "gg8l<a-a>i": "a-1  \n[\n x]<\n>",
    }),
}


def run(program, report):
    play("objects", ROWS, program, report)
    play_tables("objects", TABLES, program, report)
