"""The command lines of scripts: a mistyped option ends a script with status 2 and its usage."""
import argparse


def parser(doc):
    """A parser with the script's own text as its help. An option has to be written in full."""
    return argparse.ArgumentParser(description=doc, formatter_class=argparse.RawDescriptionHelpFormatter, allow_abbrev=False)


def one_of(doc, *modes):
    """The one of these options that is given, or None: `--write` as `write`."""
    choices, given = parser(doc), None
    group = choices.add_mutually_exclusive_group()
    for mode in modes:
        group.add_argument(f"--{mode}", action="store_const", const=mode, dest="mode")
    return choices.parse_args().mode


def program_and_names(doc, *names):
    """The path of the program, and the words behind it if there may be some: `names` is what the usage calls one of them."""
    choices = parser(doc)
    choices.add_argument("program", metavar="BIDI")
    for name in names:
        choices.add_argument("names", metavar=name, nargs="*")
    return choices.parse_args()
