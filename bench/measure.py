"""What bench/run and bench/growth share: scripts, timed runs, and tables."""

import argparse
import os
import subprocess
import sys
import tempfile
import time

sys.dont_write_bytecode = True
sys.path.insert(0, os.path.dirname(os.path.realpath(__file__)))
from generate import script

TOP = os.path.dirname(os.path.dirname(os.path.realpath(__file__)))
DATA = f"{TOP}/bench/data"
BUILT = f"{TOP}/crates/bmcreplay/out/bmcreplay"
TIME = "/usr/bin/time"
# For so many seconds each script is run at least.
LEAST = 0.5


def positive(text):
    """A number of at least 1."""
    if not (text.isascii() and text.isdecimal() and int(text) > 0):
        raise argparse.ArgumentTypeError(f"{text!r} is no number from 1 on")
    return int(text)


def options(what, lines, of):
    """The reader of the words of a measurement, which takes so many lines if none are given."""
    form = lambda prog: argparse.RawDescriptionHelpFormatter(prog, width=79)
    prog = f"bench/{os.path.basename(sys.argv[0])}"
    parser = argparse.ArgumentParser(prog=prog, description=what, formatter_class=form)
    parser.add_argument("--lines", type=positive, default=lines, metavar="N", help=f"{of}; {lines:,} if left out")
    tries = "how often each script is run at least; 5 if left out. The shortest time counts"
    parser.add_argument("--tries", type=positive, default=5, metavar="N", help=tries)
    return parser


def chosen(path):
    """The program at this path."""
    if not (os.path.isfile(path) and os.access(path, os.X_OK)):
        sys.exit(f"bench: there is no program at {path}")
    return os.path.abspath(path)


def built():
    """The program of this repository, which ./run builds where it has to."""
    if subprocess.run([f"{TOP}/run"], stdin=subprocess.DEVNULL).returncode:
        sys.exit("bench: there is no program")
    return BUILT


def made(workload, lines, count=None):
    """The path of a workload's script, which is made where it is not there yet."""
    os.makedirs(DATA, exist_ok=True)
    path = f"{DATA}/{workload}-{lines}-{count or 'most'}"
    if not os.path.exists(path):
        with open(f"{path}.new", "w") as it:
            it.writelines(script(workload, lines, count))
        os.rename(f"{path}.new", path)
    return path


def memory(program, path):
    """The most memory of a run, in KiB, or None without GNU time. A child of this large process would
    count this process's memory as its own, and a child of `time` does not."""
    if not os.access(TIME, os.X_OK):
        return None
    with tempfile.NamedTemporaryFile("r") as told, open(path, "rb") as given:
        subprocess.run([TIME, "-o", told.name, "-f", "%M", program], stdin=given, stdout=subprocess.DEVNULL)
        return int(told.read().split()[-1])


def seconds(program, path, tries):
    """The shortest time of some runs, and of more where they are short: what else runs on the machine only
    adds to it."""
    found = []
    while len(found) < tries or sum(found) < LEAST and len(found) < 40 * tries:
        with open(path, "rb") as given:
            start = time.perf_counter()
            status = subprocess.run([program], stdin=given, stdout=subprocess.DEVNULL).returncode
            found.append(time.perf_counter() - start)
        if status not in (0, 1):
            sys.exit(f"bench: {program} ended with status {status} on {path}")
    return min(found)


def lines_of(path):
    with open(path, "rb") as it:
        return sum(1 for _ in it)


def table(head, rows):
    """Prints rows under a head, each column as wide as it has to be, the first to the left."""
    rows = [head, *rows]
    wide = [max(len(row[at]) for row in rows) for at in range(len(head))]
    for row in rows:
        cells = [row[0].ljust(wide[0]), *(it.rjust(width) for it, width in zip(row[1:], wide[1:]))]
        print("  ".join(cells), flush=True)
