"""The standard streams of a command: every byte goes out, or a message and a status say that it did not.

All reading and writing of the commands goes through here, by file descriptor and in UTF-8 whatever the locale is.
"""

import argparse
import os
import select
import stat
import sys

INPUT, OUTPUT, ERRORS = 0, 1, 2
NAMES = {INPUT: "standard input", OUTPUT: "standard output"}
PIECE = 1 << 16
MOST_INPUT = 1 << 26  # bytes: over a million sections, and an end for input that has none
NO_READER = 128 + 13  # the status of a command that SIGPIPE ended
SHOWN = 40            # characters of a word that a message repeats

closed = set()        # the streams that were closed when the command began


class Complaint(Exception):
    """What is wrong, and what was expected."""


def safe(text):
    """Control characters, and bytes that are no text, by their numbers: a message never echoes them."""
    return "".join(sign if sign.isprintable() else sign.encode("unicode_escape").decode() for sign in text)


def shown(word):
    """A word as a message repeats it, not without end."""
    return safe(word[:SHOWN]) + ("..." if len(word) > SHOWN else "")


def write_whole(stream, data):
    """Write every byte; wait where the other side is not ready for more."""
    left = memoryview(data)
    while left:
        try:
            left = left[os.write(stream, left):]
        except BlockingIOError:
            select.select([], [stream], [])


def write_output(data):
    """Every byte to standard output. Some file systems say only at a close that they are full."""
    try:
        write_whole(OUTPUT, data)
        os.close(os.dup(OUTPUT))
    except BrokenPipeError:
        raise
    except OSError as error:
        raise Complaint(f"standard output: {error.strerror}; what was written is not whole") from None


def write_errors(data):
    """To standard error, if there is such a stream."""
    try:
        write_whole(ERRORS, data)
    except OSError:
        pass  # the status says it too


def say(command, message):
    """One line on standard error."""
    write_errors(f"{command}: {message}\n".encode("utf-8", "backslashreplace"))


def demand(stream):
    """A stream that the command cannot do without."""
    if stream in closed:
        raise Complaint(f"{NAMES[stream]} is closed")


def demand_no_terminal():
    """Standard output is to take records."""
    if os.isatty(OUTPUT):
        raise Complaint("records are binary; expected a file or a program as standard output, and no terminal")


def demand_other_files(paths):
    """No input is the file that standard output goes to: the shell has emptied it, or it would hold both at the end."""
    output = os.fstat(OUTPUT)
    for path in paths or ["-"]:
        try:
            given = os.fstat(INPUT) if path == "-" else os.stat(path)
        except OSError:
            continue  # reading it will say so
        if stat.S_ISREG(given.st_mode) and os.path.samestat(given, output):
            name = NAMES[INPUT] if path == "-" else safe(path)
            raise Complaint(f"{name} is standard output too, which the shell may have emptied already; expected another file")


def read_stream(stream):
    """All bytes up to the end of input; a failed read is not the end of it."""
    data = bytearray()
    while True:
        try:
            piece = os.read(stream, PIECE)
        except BlockingIOError:
            select.select([stream], [], [])
            continue
        if not piece:
            return bytes(data)
        data += piece
        if len(data) > MOST_INPUT:
            raise Complaint(f"an input goes on after {MOST_INPUT} bytes; expected no more")


def await_input(command, awaited):
    """Where standard input is a terminal, one line says what is awaited."""
    demand(INPUT)
    if os.isatty(INPUT):
        say(command, f"awaiting {awaited} on standard input; Ctrl-D ends it, --help says more")


def inputs(paths, command, awaited):
    """Name and bytes of each file; standard input for '-', and where none is named."""
    for path in paths or ["-"]:
        name = NAMES[INPUT] if path == "-" else safe(path)
        try:
            if path == "-":
                await_input(command, awaited)
                yield name, read_stream(INPUT)
            else:
                with open(path, "rb", buffering=0) as file:
                    yield name, read_stream(file.fileno())
        except OSError as error:
            raise Complaint(f"{name}: {error.strerror}") from None


class Arguments(argparse.ArgumentParser):
    """A command line that speaks through the streams above."""

    def __init__(self, command, description, rules=""):
        super().__init__(prog=command, description=description, epilog=rules, allow_abbrev=False,
                         formatter_class=argparse.RawDescriptionHelpFormatter)

    def print_help(self, file=None):
        """--help, in UTF-8."""
        write_output(self.format_help().encode())

    def error(self, message):
        """An argument that is not understood."""
        say(self.prog, f"{safe(message)}; --help says what it takes")
        raise SystemExit(2)


def hold_places():
    """A closed stream's number would go to the next file that is opened; /dev/null takes it instead."""
    for stream in (INPUT, OUTPUT, ERRORS):
        try:
            os.fstat(stream)
        except OSError:
            closed.add(stream)
            os.open(os.devnull, os.O_RDWR)


def run(command, main):
    """Ends with the status of main, or with a message and a status that is not 0."""
    hold_places()
    try:
        demand(OUTPUT)
        status = main()
    except Complaint as complaint:
        for line in complaint.args:
            say(command, line)
        status = 1
    except BrokenPipeError:
        status = NO_READER
    except KeyboardInterrupt:
        status = 130
    sys.exit(status)
