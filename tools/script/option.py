"""Words of the tools' commands, as argparse reads them."""
import argparse
import re

MOST_BUDGET = 10_000_000


class Once(argparse.Action):
    """Stores a value, and refuses a second one."""

    def __call__(self, parser, namespace, values, option_string=None):
        given = namespace.__dict__.setdefault("given_once", set())
        if option_string and self.dest in given:
            parser.error(f"{option_string} is given 2 times")
        given.add(self.dest)
        setattr(namespace, self.dest, values)


def each_once(parser):
    """Makes a parser refuse an option with a value that comes twice, as the program does; `append` stays."""
    parser.register("action", None, Once)
    parser.register("action", "store", Once)
    return parser


def budget(text):
    """The units of --budget, as the program takes them."""
    if not re.fullmatch("[0-9]{1,10}", text) or not 1 <= int(text) <= MOST_BUDGET:
        raise argparse.ArgumentTypeError(f"it is a number from 1 to {MOST_BUDGET}, and not {text}")
    return int(text)
