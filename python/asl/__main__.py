"""python3 -m asl lists [--k K|auto] [--entry F].. < source     all that is told of the lists of a source, as JSON"""
import argparse
import sys

from . import AslError, lists


def main() -> int:
    words = argparse.ArgumentParser(prog="python3 -m asl", description=__doc__)
    commands = words.add_subparsers(dest="command", required=True)
    command = commands.add_parser("lists", help="all that is told of the lists of a source, as JSON")
    command.add_argument("--k", default="3", choices=[*map(str, range(9)), "auto"], help="the most operations of a path, or as many as are accepted")
    command.add_argument("--entry", action="append", default=[], metavar="F", help="a function that is called from outside, of a source without main")
    given = words.parse_args()
    try:
        print(lists(sys.stdin.buffer.read(), given.k, given.entry).json(indent=1))
    except (AslError, ValueError) as error:
        print(f"asl: {getattr(error, 'reason', error)}", file=sys.stderr)
        return 1
    return 0


if __name__ == "__main__":
    sys.exit(main())
