"""The keys of the lockstep client, for the checks and for the benchmark."""

LETTERS_PER_LINE = 40
LETTERS = "abcdefghijklmnopqrstuvwxyz"


def typed_keys(count):
    """So many keys to be typed in insert mode: letters, and each 40th one a newline."""
    for number in range(1, count + 1):
        yield "<ret>" if number % LETTERS_PER_LINE == 0 else LETTERS[number * 7 % len(LETTERS)]
