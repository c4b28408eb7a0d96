"""Puts the layers of old binary records in sequence: by rising depth, and equal depths by rising area.

  sort-records OLD >NEW

The engine reads no record whose layers stand otherwise (31). Each record comes out with the same map and as
many bytes: its layers change places among themselves, and no other byte is changed. A record that the engine
refuses for something else is treated alike and keeps all its numbers. All records are written, or none where
one cannot be taken apart; a note says how many were out of sequence. NEW is to be another file than OLD: the
shell empties it before OLD is read.
"""

import records
import streams
from streams import Complaint

COMMAND = "sort-records"


def arguments():
    """The command line."""
    parser = streams.Arguments(COMMAND, __doc__)
    parser.add_argument("files", metavar="FILE", nargs="*", help="records; '-' or none is standard input")
    return parser.parse_args()


def main():
    """Write all records, or none where one is broken, and then say how many were changed.

    Refused records are sorted too: no record that comes out has 31, none lost a number, and the bounds are known to the engine alone.
    """
    files = arguments().files
    streams.demand_no_terminal()
    streams.demand_other_files(files)
    written, number, moved, complaints = bytearray(), 0, 0, []
    try:
        for name, data in streams.inputs(files, COMMAND, "binary records"):
            for section, record in records.stored(name, data, complaints):
                written += records.put_in_sequence(record)
                number += 1
                moved += not section.in_sequence
    except Complaint as complaint:
        complaints += complaint.args
    if complaints:
        raise Complaint(*complaints, "nothing is written")
    streams.write_output(bytes(written))
    streams.say(COMMAND, f"note: {moved} of {number} records had layers out of sequence")
    return 0


if __name__ == "__main__":
    streams.run(COMMAND, main)
