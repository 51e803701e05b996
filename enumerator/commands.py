"""What the commands in Python share: arguments, files that are read as the
programs do, and parts that run by their names."""

import argparse
import sys


def parser(doc, name=None):
    """A parser of arguments whose help is the module's own text."""
    return argparse.ArgumentParser(
        prog=name, description=doc,
        formatter_class=argparse.RawDescriptionHelpFormatter)


def file_bytes(name):
    """"a file it cannot read counts as empty" """
    try:
        with open(name, "rb") as file:
            return file.read()
    except OSError:
        return b""


def print_answer(doc, printed, files, state=None):
    """The command of a program: writes the bytes printed for the contents of
    the files named in the arguments and, where it has one, the text of a state
    or None."""
    arguments = parser(doc)
    for name in files:
        arguments.add_argument(name, metavar=name.upper())
    if state is not None:
        arguments.add_argument(state, metavar=state.upper(), nargs="?")
    given = vars(arguments.parse_args())
    words = [file_bytes(given[name]) for name in files]
    if state is not None:
        text = given[state]
        words.append(None if text is None
                     else text.encode("latin-1", "replace"))
    sys.stdout.buffer.write(printed(*words))


def numbers(doc, *names):
    """The numbers that are the arguments of a command."""
    arguments = parser(doc)
    for name in names:
        arguments.add_argument(name, metavar=name.upper(), type=int)
    given = vars(arguments.parse_args())
    return [given[name] for name in names]


def folders(doc, *names, default=None):
    """The folders that are the arguments of a command; the last one may be
    left out where a default is given."""
    arguments = parser(doc)
    for name in names:
        is_left_out = default is not None and name == names[-1]
        arguments.add_argument(name, metavar=name.upper(),
                               nargs="?" if is_left_out else None,
                               default=default if is_left_out else None)
    given = vars(arguments.parse_args())
    return [given[name] for name in names]


def part_names(parts):
    """The parts of a test by their names, those of the functions with - for _
    where the parts are functions."""
    if isinstance(parts, dict):
        return parts
    return {part.__name__.replace("_", "-"): part for part in parts}


def add_parts(arguments, parts):
    """The argument NAME..: the parts to run, all of them if none is named."""
    arguments.add_argument(
        "names", nargs="*", metavar="NAME",
        help="the parts to run, all if none is named: "
        + ", ".join(part_names(parts)))


def chosen_parts(arguments, parts, given):
    """The parts that were named, in their order."""
    names = part_names(parts)
    for name in given:
        if name not in names:
            arguments.error("no part is named '%s': %s"
                            % (name, ", ".join(names)))
    return [part for name, part in names.items() if not given or name in given]
