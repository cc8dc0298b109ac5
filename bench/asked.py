"""What the scripts here are asked: the program that they try, and their options, each with its default.

`options(__doc__, "rds_node", runs=10, fresh=False, only=("a", "b"))` reads [PROGRAM] [--runs N] [--fresh] [--only a|b].
"""
import argparse
import pathlib
import sys

CRATES = pathlib.Path(__file__).resolve().parent.parent / "crates"


def built(name):
    """The program that `rt run` leaves of a crate, or else the unproved one of bench/try, which is reported."""
    proved, unproved = CRATES / name / "out" / name, CRATES / name / "out/unproved" / name
    if proved.is_file():
        return str(proved)
    if not unproved.is_file():
        sys.exit(f"{proved} isn't there: 'rt run' or bench/try makes it")
    print(f"{unproved} is taken, which is slow", file=sys.stderr)
    return str(unproved)


def reader_of(page):
    """A reader of arguments, whose --help prints this page."""
    return argparse.ArgumentParser(description=page, formatter_class=argparse.RawDescriptionHelpFormatter)


def program_of(reader, given, name="rds_node"):
    """The path of the program that was given, which has to be there, or else of this crate's, if any is named."""
    if not given:
        return name and built(name)
    if not pathlib.Path(given).is_file():
        reader.error(f"{given} isn't there")
    return str(pathlib.Path(given).resolve())


def options(page, name="rds_node", **others):
    """What a script with this page is asked, which tries the program of this crate, if any, where none is given."""
    reader = reader_of(page)
    reader.add_argument("program", nargs="?")
    for option, otherwise in others.items():
        flag = f"--{option}"
        if otherwise is False:
            reader.add_argument(flag, action="store_true")
        elif isinstance(otherwise, tuple):
            reader.add_argument(flag, choices=otherwise)
        else:
            reader.add_argument(flag, default=otherwise, type=str if otherwise is None else type(otherwise))
    asked = reader.parse_args()
    asked.program = program_of(reader, asked.program, name)
    return asked
