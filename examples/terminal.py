#!/usr/bin/env python3
"""The editor, in this terminal.

    examples/terminal.py [FILE]
    examples/terminal.py -s SESSION [FILE]

The first starts an editor for this window alone, `kak -ui json`. The second opens a window on a session that others may
share: it connects to the socket SESSION.kak in the current folder, and starts `kakd` for it where nobody serves it yet. FILE
is shown, or a new buffer where there is no such file. `:w<ret>` writes it, `:q<ret>` leaves; ctrl-\\ leaves without a word.

The programs are those that `./run` built, crates/kak/out/kak and crates/kakd/out/kakd, or else `toulvazin-kak` and
`toulvazin-kakd` on the PATH. KAK and KAKD in the environment name others.
"""
import sys

from terminal.command import main

if __name__ == "__main__":
    sys.exit(main(sys.argv[1:], __doc__))
