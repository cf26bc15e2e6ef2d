"""What the words of the command line ask for, by docs/FORMATS.md."""

import re
from collections import namedtuple

from eventlog import DEFAULT_CAP

USAGE = b"usage: bmcreplay [--strict] [--log-cap N] [--sample N] [CONFIG]..\n"
# What words ask for: strict mode, the cap of the log, the seed of a sample or None, and the names of files.
Settings = namedtuple("Settings", "strict log_cap sample files")
# The options with a number, and its range.
RANGES = {b"--log-cap": (1, 1000), b"--sample": (0, 2**31 - 1)}
NUMBER = re.compile(rb"\+?[0-9]+")


class Refused(Exception):
    """The words are refused."""


def demand(holds):
    """Goes on where a rule holds."""
    if not holds:
        raise Refused


def is_option(word):
    """Whether a word is no name of a file."""
    return word.startswith(b"-") and word != b"-"


def number_of(text, least, most):
    """A number in its range."""
    demand(NUMBER.fullmatch(text))
    demand(least <= int(text) <= most)
    return int(text)


def take_option(word, rest, given):
    """Takes an option, and the number behind it where it has one. None is given twice."""
    key, sign, number = word.partition(b"=")
    demand(key not in given)
    if key == b"--strict":
        demand(not sign)
        given[key] = True
        return
    demand(key in RANGES)
    demand(sign or rest)
    given[key] = number_of(number if sign else rest.pop(0), *RANGES[key])


def settings_of(words):
    """What these words ask for. Raises Refused."""
    rest, names, given = list(words), [], {}
    demand(all(is_text(it) for it in words))
    while rest:
        word = rest.pop(0)
        if word == b"--":
            names += rest
            break
        if is_option(word):
            take_option(word, rest, given)
        else:
            names.append(word)
    demand(b"--sample" not in given or not names)
    return Settings(b"--strict" in given, given.get(b"--log-cap", DEFAULT_CAP), given.get(b"--sample"), names)


def is_text(word):
    """Whether a word is UTF-8."""
    try:
        word.decode("utf-8")
    except UnicodeDecodeError:
        return False
    return True
