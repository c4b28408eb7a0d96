"""Turns readable sections into binary records for the check list program."""

import os

import streams
import table
from records import INPUT_ROOM
from streams import Complaint

COMMAND = "make-record"
AWAITED = "sections, one a line: b h fck fyk N M V [situation=S] [alphacc=F] [links=A/s] d/A ..."


def arguments():
    """The command line."""
    parser = streams.Arguments(COMMAND, __doc__, table.RULES)
    parser.add_argument("files", metavar="FILE", nargs="*", help="a text; '-' or none is standard input")
    parser.add_argument("--split", metavar="PREFIX",
                        help=f"write whole records to PREFIX1, PREFIX2 ..., files of at most {INPUT_ROOM} bytes each, "
                             "and say which records each one has")
    return parser.parse_args()


def parted(records):
    """Groups of records that the list program takes at once."""
    group, size = [], 0
    for record in records:
        if size + len(record) > INPUT_ROOM:
            yield group
            group, size = [], 0
        group.append(record)
        size += len(record)
    if group:
        yield group


def write_new(path, data, created):
    """A new file with every byte of the data."""
    file = os.open(path, os.O_WRONLY | os.O_CREAT | os.O_EXCL, 0o666)
    created.append(path)
    try:
        streams.write_whole(file, data)
    finally:
        os.close(file)


def split(prefix, records):
    """All files, or none where one cannot be written whole. Answers a line for each."""
    groups, created = list(parted(records)), []
    digits = len(str(len(groups)))
    paths = [f"{prefix}{number:0{digits}}" for number in range(1, len(groups) + 1)]
    try:
        for path, group in zip(paths, groups):
            write_new(path, b"".join(group), created)
    except OSError as error:
        for written in created:
            os.remove(written)
        raise Complaint(f"{streams.safe(path)}: {error.strerror}; expected a prefix of new files with room for "
                        "all records, and none is kept") from None
    return said(paths, groups)


def said(paths, groups):
    """The records of each file by their numbers in the whole text."""
    lines, last = [], 0
    for path, group in zip(paths, groups):
        lines.append(f"{streams.safe(path)}: records {last + 1} to {last + len(group)}\n")
        last += len(group)
    return "".join(lines).encode("utf-8", "backslashreplace")


def main():
    """Write all records, or none where a line is wrong."""
    given = arguments()
    if given.split is None:
        streams.demand_no_terminal()
    records, notes = table.records_of_texts(streams.inputs(given.files, COMMAND, AWAITED))
    data = b"".join(records)
    if given.split is None and len(data) > INPUT_ROOM:
        notes.append(f"{len(data)} bytes of records; the list program refuses more than {INPUT_ROOM} at once (26), "
                     "and --split PREFIX writes files of at most as many")
    for note in notes:
        streams.say(COMMAND, f"note: {note}")
    streams.write_output(data if given.split is None else split(given.split, records))
    return 0


if __name__ == "__main__":
    streams.run(COMMAND, main)
