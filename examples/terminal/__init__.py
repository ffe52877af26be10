"""The parts of `examples/terminal.py`, the front end for a terminal."""
