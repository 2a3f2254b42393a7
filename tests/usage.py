"""The words that a script takes. `--help` prints the line of its text that begins with `usage: `, with status 0; after
words that it does not know that line goes to standard error, with status 2. Nothing has begun by then. usage.sh is for shells."""
import argparse
import re
import sys


class Words(argparse.ArgumentParser):
    """The words of the script that runs, once it has said which options it takes."""

    def __init__(self):
        super().__init__(add_help=False, allow_abbrev=False)
        self.line = re.search(r"^usage: .*$", sys.modules["__main__"].__doc__, re.M)[0]
        if {"--help", "-h"} & set(sys.argv[1:]):
            self.exit(print(self.line))

    def error(self, message):
        self.exit(2, f"{self.line}\n")


def whole(text):
    """The whole number that a word spells."""
    if not re.fullmatch("[0-9]+", text):
        raise ValueError(text)
    return int(text)


def numbers(*usual):
    """The numbers that the script is given, of as many as are usual; the usual ones stand for those that are left out."""
    words = Words()
    for at, number in enumerate(usual):
        words.add_argument(str(at), nargs="?", type=whole, default=number)
    return vars(words.parse_args()).values()
