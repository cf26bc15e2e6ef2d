"""What the checks share: the program, runs of it, and how a check ends."""

import argparse
import os
import socket
import subprocess
import sys

sys.dont_write_bytecode = True

TOP = os.path.dirname(os.path.dirname(os.path.dirname(os.path.realpath(__file__))))
CHECK = os.path.basename(sys.argv[0])


def fail(text):
    """Ends the check: it has failed."""
    sys.exit(f"checks/{CHECK}: {text}")


# What the help of each check that runs the program says at its end.
CHOICE = "BMCREPLAY=PATH before the command has it look at the program at PATH,\nand not at the one that ./run builds."


def options(what, choice=CHOICE):
    """The reader of a check's words. Its help says what the check looks at."""
    form = lambda prog: argparse.RawDescriptionHelpFormatter(prog, width=79)
    return argparse.ArgumentParser(prog=f"checks/{CHECK}", description=what, epilog=choice, formatter_class=form)


def program():
    """The path of the program: the one that BMCREPLAY names, or that which ./run builds."""
    path = os.environ.get("BMCREPLAY")
    if not path:
        path = f"{TOP}/crates/bmcreplay/out/bmcreplay"
        built = subprocess.run([f"{TOP}/run"], stdin=subprocess.DEVNULL, capture_output=True, text=True)
        if built.returncode:
            fail(f"there is no program to check: {built.stderr.strip()}")
    if not os.access(path, os.X_OK):
        fail(f"there is no program at {path}")
    return path


# The statuses, and what standard error has, by the status.
DONE, REFUSED, USED_WRONG, OUT_OF_MEMORY, READ_FAULT, WRITE_FAULT, TOO_LONG = range(7)
SAID = {
    DONE: b"",
    REFUSED: b"",
    USED_WRONG: b"",
    OUT_OF_MEMORY: b"bmcreplay: out of memory\n",
    READ_FAULT: b"bmcreplay: the input or a file could not be read\n",
    WRITE_FAULT: b"bmcreplay: the output could not be written\n",
    TOO_LONG: b"bmcreplay: the input has at least 1,099,511,627,776 bytes\n",
}


def ended(path, words=(), stdout=subprocess.DEVNULL, **said):
    """The status of a run, and what it wrote to standard error."""
    run = subprocess.run([path, *words], stdout=stdout, stderr=subprocess.PIPE, timeout=60, **said)
    return run.returncode, run.stderr


def expect(what, found, wanted):
    """Compares the status of a run, and what it wrote to standard error."""
    if found != (wanted, SAID[wanted]):
        fail(f"{what}: status {found[0]} and {found[1]!r} on standard error, not status {wanted} and {SAID[wanted]!r}")


def play(path, script, words=(), folder=None, seconds=60):
    """What the program prints for a script and these words, in this folder, and its status; below 0 it is the number of
    a signal."""
    try:
        run = subprocess.run([path, *words], input=script, capture_output=True, timeout=seconds, cwd=folder)
    except subprocess.TimeoutExpired:
        fail(f"the program has not ended within {seconds} seconds")
    if run.stderr:
        fail(f"the program wrote to standard error: {run.stderr[:200]!r}")
    return run.stdout, run.returncode


def play_pieces(path, script, size, words=(), folder=None):
    """What the program prints for pieces of this size, and these words. Over this kind of socket each piece that is
    sent is a read of its own, which a pipe does not promise."""
    here, there = socket.socketpair(socket.AF_UNIX, socket.SOCK_SEQPACKET)
    here.settimeout(60)
    with subprocess.Popen([path, *words], stdin=there, stdout=subprocess.PIPE, cwd=folder) as run, here:
        there.close()
        os.set_blocking(run.stdout.fileno(), False)
        printed = b""
        for at in range(0, len(script), size):
            here.send(script[at : at + size])
            printed += run.stdout.read() or b""
        here.shutdown(socket.SHUT_WR)
        os.set_blocking(run.stdout.fileno(), True)
        printed += run.stdout.read()
    return printed, run.returncode


def example(folder):
    """The script of an example, and its words, with spaces between them."""
    with open(f"{folder}/script", "rb") as it:
        script = it.read()
    if not os.path.exists(f"{folder}/words"):
        return script, []
    with open(f"{folder}/words", "rb") as it:
        return script, it.read().split()


def lay(files, folder):
    """Puts files with this content into a folder, each under its name."""
    os.makedirs(folder, exist_ok=True)
    for name, data in files.items():
        with open(os.path.join(os.fsencode(folder), name), "wb") as it:
            it.write(data)


def first_difference(printed, wanted):
    """The first line that differs, for a message."""
    printed, wanted = printed.split(b"\n"), wanted.split(b"\n")
    for at in range(max(len(printed), len(wanted))):
        one, other = (it[at : at + 1] for it in (printed, wanted))
        if one != other:
            return f"line {at + 1} is {one}, and {other} was wanted"
    return "they are the same"
