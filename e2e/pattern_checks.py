"""Keys that handle patterns, and what their drawings then say, in the rows and with the marks of the checks of edits."""
from edit_checks import play

REFUSED = "bad pattern"
NOTHING = "nothing selected"

# keys that are typed after `i`, a text and `<esc>gg`; the text that is then drawn; the mode line; the status
ROWS = {
    # selecting
    "each match": ("aXbXc", ["%sX<ret>d"], "a<bc>\n", "1:3 normal 2/2", ""),
    "no match": ("abc", ["%sq<ret>"], "[abc]<\n>", "1:4 normal 1/1", NOTHING),
    "in each selection by itself": ("ab<ret>ab", ["%<a-s>sb<ret>"], "a<b>\na<b>\n", "2:2 normal 2/2", ""),
    "an empty match at an end selects nothing": ("ab", ["%sa*<ret>"], "<a>b<\n>", "1:3 normal 2/2", ""),
    "the start of each line": ("ab<ret>cd", ["%s^.<ret>"], "<a>b\n<c>d\n", "2:1 normal 2/2", ""),
    "a dot matches a newline": ("a<ret>b", ["%sa.b<ret>"], "[a\n]<b>\n", "2:1 normal 1/1", ""),
    "word ends": ("a b", ["%s\\b.<ret>"], "<a b><\n>", "1:4 normal 4/4", ""),
    "characters of several bytes": ("é漢é", ["%sé<ret>"], "<é>漢<é>\n", "1:3 normal 2/2", ""),
    "straight, of a turned one": ("abc", ["%<a-;>sbc<ret>"], "a[b]<c>\n", "1:3 normal 1/1", ""),
    # splitting
    "into characters": ("abc", ["%S<ret>"], "<abc><\n>", "1:4 normal 4/4", ""),
    "at words": ("ab cd", ["%S\\b<ret>"], "(a)<b >(c)<d><\n>", "1:6 normal 4/4", ""),
    "at what isn't kept": ("a,b", ["%S,<ret>"], "<a>,[b]<\n>", "1:4 normal 2/2", ""),
    "nothing is left": ("ab", ["S.<ret>"], "<a>b\n", "1:1 normal 1/1", NOTHING),
    # keeping and dropping
    "those with a match": ("ab<ret>cd<ret>eb", ["%<a-s><a-k>b<ret>"], "(ab)<\n>cd\n[eb]<\n>", "3:3 normal 2/2", ""),
    "those without": ("ab<ret>cd<ret>eb", ["%<a-s><a-K>b<ret>"], "ab\n[cd]<\n>eb\n", "2:3 normal 1/1", ""),
    "an empty match counts": ("ab", ["%<a-k>x*<ret>"], "[ab]<\n>", "1:3 normal 1/1", ""),
    "none is kept": ("ab", ["<a-k>x<ret>"], "<a>b\n", "1:1 normal 1/1", NOTHING),
    # searching
    "the next match": ("ab ab", ["/ab<ret>"], "ab [a]<b>\n", "1:5 normal 1/1", ""),
    "round the end": ("ab ab", ["/ab<ret>n"], "[a]<b> ab\n", "1:2 normal 1/1", ""),
    "round the start": ("ab ab", ["<a-/>ab<ret>"], "ab [a]<b>\n", "1:5 normal 1/1", ""),
    "the former match": ("a a a", ["gl<a-/>a<ret>"], "a <a> a\n", "1:3 normal 1/1", ""),
    "extended to the next": ("a b", ["?b<ret>"], "[a ]<b>\n", "1:3 normal 1/1", ""),
    "extended back": ("abc abc", ["gl<a-?>ab<ret>"], "abc a<b>[c]\n", "1:6 normal 1/1", ""),
    "itself alone": ("ab", ["/a<ret>"], "<a>b\n", "1:1 normal 1/1", ""),
    "each selection its own": ("a b<ret>a b", ["%<a-s>gh/b<ret>"], "a <b>\na <b>\n", "2:3 normal 2/2", ""),
    "found by none": ("ab", ["/x<ret>"], "<a>b\n", "1:1 normal 1/1", NOTHING),
    # again
    "the pattern of before": ("a a a", ["/a<ret>", "n"], "a a <a>\n", "1:5 normal 1/1", ""),
    "so many times": ("a a a a", ["/a<ret>", "2n"], "a a a <a>\n", "1:7 normal 1/1", ""),
    "back": ("a a a", ["/a<ret>", "<a-n>"], "<a> a a\n", "1:1 normal 1/1", ""),
    "one more": ("a a a", ["/a<ret>", "N"], "a <a> <a>\n", "1:5 normal 2/2", ""),
    "one more before": ("a a a", ["gl/a<ret>n", "<a-N>"], "<a> <a> a\n", "1:1 normal 1/2", ""),
    "two more": ("a a a", ["/a<ret>", "2N"], "<a> <a> <a>\n", "1:1 normal 1/3", ""),
    "the main one alone": ("a a<ret>a a", ["%<a-s>gh/a<ret>n"], "<a> <a>\na a\n", "1:1 normal 1/2", ""),
    "on and on, round the end": ("a a a a", ["/a<ret>", "n", "n", "n", "n"], "a <a> a a\n", "1:3 normal 1/1", ""),
    "back and back, round the start": ("a a a a", ["/a<ret>", "<a-n>", "<a-n>", "<a-n>"], "a a <a> a\n", "1:5 normal 1/1", ""),
    "on and back": ("a a a a", ["/a<ret>", "n", "n", "<a-n>", "<a-n>"], "a <a> a a\n", "1:3 normal 1/1", ""),
    "where the text was changed since": ("a a a a", ["/a<ret>", "n", "n", "ggd", "n"], " <a> a a\n", "1:2 normal 1/1", ""),
    "where the change was undone": ("a a a a", ["/a<ret>", "n", "ggd", "n", "n", "u", "n"], "a <a> a a\n", "1:3 normal 1/1", ""),
    "where another pattern was sought": ("a b a b", ["/a<ret>", "n", "n", "/b<ret>", "n", "n"], "a b a <b>\n", "1:7 normal 1/1", ""),
    "an empty match, on and on": ("ab", ["/x*<ret>", "n", "n", "n"], "a<b>\n", "1:2 normal 1/1", ""),
    "without a pattern": ("ab", ["n"], "a<b>\n", "1:2 normal 1/1", ""),
    "the empty prompt": ("a a a", ["/a<ret>", "/<ret>"], "a a <a>\n", "1:5 normal 1/1", ""),
    "the last string of the register": ("a b", ["%S\\s<ret>\"/y", "gg/<ret>"], "a <b>\n", "1:3 normal 1/1", ""),
    # the main selection's text
    "as it is": ("a.b aXb a.b", ["ll<a-h><a-*>", "n"], "a.b aXb [a.]<b>\n", "1:11 normal 1/1", ""),
    "a part of a word isn't one": ("ab abc ab", ["l<a-h>*", "n"], "ab abc [a]<b>\n", "1:9 normal 1/1", ""),
    "what is escaped": ("a+b", ["ll<a-h><a-*>", "gl\"/p"], "a+b[a\\+]<b>\n", "1:7 normal 1/1", ""),
    "the ends of words": ("ab", ["l<a-h>*", "gl\"/p"], "ab[\\bab\\]<b>\n", "1:8 normal 1/1", ""),
    "one that isn't a number for patterns": ("a½ b", ["l<a-h>*", "$", "gl\"/p"], "a½ b[\\ba½\\]<b>\n", "1:10 normal 1/1", ""),
    # refused
    "a bracket alone": ("abc", ["%s(<ret>"], "[abc]<\n>", "1:4 normal 1/1", REFUSED),
    "the register has it": ("abc", ["s(<ret>", "\"/p"], "a<(>bc\n", "1:2 normal 1/1", ""),
    "the rest of the line goes on": ("abc", ["%s(<ret>;l"], "abc<\n>", "1:4 normal 1/1", ""),
    "one that would take long elsewhere": ("aaaaaaaaaaaaaaaaaaaaaaaaaaaaaaaa", ["%s(a*)*b<ret>"], f"[{'a' * 32}]<\n>", "1:33 normal 1/1", NOTHING),
    "an empty pattern so many times": ("a a", ["3n"], "a a<\n>", "1:4 normal 1/1", ""),
    # prompts
    "while it is typed": ("ab", ["sx"], "<a>b\n", "1:1 prompt 1/1", "select:x "),
    "not accepted": ("ab", ["sb<esc>l"], "a<b>\n", "1:2 normal 1/1", ""),
    "the names of prompts": ("ab", ["S"], "<a>b\n", "1:1 prompt 1/1", "split: "),
    "of those that keep": ("ab", ["<a-k>"], "<a>b\n", "1:1 prompt 1/1", "keep: "),
    "of those that drop": ("ab", ["<a-K>"], "<a>b\n", "1:1 prompt 1/1", "drop: "),
    "of searches": ("ab", ["?"], "<a>b\n", "1:1 prompt 1/1", "search: "),
    "of searches back": ("ab", ["<a-?>"], "<a>b\n", "1:1 prompt 1/1", "reverse search: "),
    "by another register": ("b ab", ["\"ay", "/a<c-r>a<ret>"], "b [a]<b>\n", "1:4 normal 1/1", ""),
}


def run(program, report):
    play("patterns", ROWS, program, report)
