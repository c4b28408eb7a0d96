"""Prints the check list of sections: a line of depth, resistances and verdicts for each record.

The depth u is in tenths of a millimetre; where it is more than ten times the height in millimetres, the
section is compressed over its full height.

The list program is proved and built first where that has not been done since its sources last changed.
It reads and writes the streams itself; this command starts it and ends with status 0 only where the
list is whole. Status 1: it is not, and a message says why. Status 2: an argument is not understood.
"""

import ctypes
import os
import signal
import stat
import subprocess

import kit
import streams
import table
from records import INPUT_ROOM
from streams import Complaint

COMMAND = "check-list"
LOOKED_AT = 4  # bytes: a map, whose first byte is below any letter or digit


def arguments():
    """The command line."""
    parser = streams.Arguments(COMMAND, __doc__)
    parser.add_argument("--text", action="store_true",
                        help="FILE is a readable text; 'make-record --help' has its rules")
    parser.add_argument("file", metavar="FILE", nargs="?", default="-",
                        help="records as make-record writes them; '-' or none is standard input")
    return parser.parse_args()


# --- what goes in -----------------------------------------------------------


def records_of_text(path):
    """The records of a readable text, as make-record makes them."""
    records, notes = table.records_of_texts(streams.inputs([path], COMMAND, "a text of sections, one a line"))
    for note in notes:
        streams.say(COMMAND, f"note: {note}")
    data = b"".join(records)
    if len(data) > INPUT_ROOM:
        raise Complaint(f"{len(data)} bytes of records; expected at most {INPUT_ROOM} at once "
                        "('make-record --split PREFIX FILE' writes files of at most as many)")
    return data


def peeked(source):
    """The first bytes of the source, which stay in it; none where they cannot be seen so."""
    kind = os.fstat(source).st_mode
    if stat.S_ISREG(kind):
        return os.pread(source, LOOKED_AT, os.lseek(source, 0, os.SEEK_CUR))
    if not stat.S_ISFIFO(kind):
        return b""
    reader, writer = os.pipe()
    copied = ctypes.CDLL(None).tee(source, writer, LOOKED_AT, 0)  # Linux: a copy from pipe to pipe
    first = os.read(reader, copied) if copied > 0 else b""
    os.close(reader)
    os.close(writer)
    return first


def hint_at_text(source):
    """A text in place of records would only show as refusal 21."""
    try:
        first = peeked(source)
    except OSError:
        return  # the program will say so
    if first and (first.startswith(b"\xef\xbb\xbf") or all(byte in b"\t\n\r" or 32 <= byte < 127 for byte in first)):
        streams.say(COMMAND, "note: this looks like text; expected records. 'check-list --text FILE' takes a text, "
                             "and make-record turns it into records")


def opened(path):
    """The file or standard input, for the program to read."""
    if path == "-":
        streams.await_input(COMMAND, "binary records")
        return streams.INPUT
    try:
        return os.open(path, os.O_RDONLY)
    except OSError as error:
        raise Complaint(f"{streams.safe(path)}: {error.strerror}") from None


# --- the program ------------------------------------------------------------


def run_program(program, source, data):
    """How the program ended, and what it said on standard error. `data` is what a pipe brings it, if it is one."""
    try:
        with subprocess.Popen([program], stdin=source, stderr=subprocess.PIPE) as process:
            _, said = process.communicate(data)
            return process.returncode, said
    except OSError as error:
        raise Complaint(f"{program} could not be started: {error.strerror}") from None


def status_of(ended, said):
    """0 where the list is whole. Whoever stops reading, as '| head -1' does, needs no message."""
    if ended in (-signal.SIGPIPE, streams.NO_READER):
        return streams.NO_READER
    if ended < 0:
        raise Complaint(f"the list program was ended by signal {-ended} ({signal.strsignal(-ended)}); the list is not whole")
    return 1 if said or ended else 0


def main():
    """The list of one input."""
    given = arguments()
    data = records_of_text(given.file) if given.text else None
    source = subprocess.PIPE if given.text else opened(given.file)
    program = kit.list_program(COMMAND)
    if not given.text:
        hint_at_text(source)
    ended, said = run_program(program, source, data)
    streams.write_errors(said)
    return status_of(ended, said)


if __name__ == "__main__":
    streams.run(COMMAND, main)
