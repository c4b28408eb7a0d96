"""Shows binary records as the readable text that make-record takes ('make-record --help' has its rules).

Layers are shown in the sequence in which they stand; a note says which records are out of the engine's sequence.
"""

import records
import streams
import table
from streams import Complaint

COMMAND = "show-record"
NAMED = 10  # records of an input that a note names; it counts the others
HEADING = """\
# b h and the depths d in mm, fck fyk in N/mm², N V in N, M in N·mm, areas A in mm²;
# N positive in compression, M positive where it compresses the top;
# situation=accidental takes that row of Table 2.1N; without it the situation is persistent;
# alphacc=0.85 is the long-term factor αcc of the concrete strength (3.1.6(1)); without it αcc is 1.00;
# links=A/s are vertical links of area A in mm² every s mm.
#
"""


def arguments():
    """The command line."""
    parser = streams.Arguments(COMMAND, __doc__)
    parser.add_argument("files", metavar="FILE", nargs="*", help="records; '-' or none is standard input")
    return parser.parse_args()


def note_of(name, numbers):
    """What is to be said of the records of an input, by their numbers, that are out of sequence."""
    named = ", ".join(map(str, numbers[:NAMED]))
    more = f" and {len(numbers) - NAMED} more" if len(numbers) > NAMED else ""
    return (f"{name}, record {named}{more}: layers out of sequence (rising depth, then rising area), "
            "which the engine does not read (31); sort-records puts them in sequence")


def lines_of(name, data, notes, complaints):
    """A line for each record of an input, up to the first that is broken."""
    lines, unsorted = [], []
    for section, _ in records.stored(name, data, complaints):
        lines.append(table.line_of(section))
        if not section.in_sequence:
            unsorted.append(len(lines))
    if unsorted:
        notes.append(note_of(name, unsorted))
    return lines


def main():
    """The heading, then a line for each record; notes, and what is wrong, come after what was right."""
    lines, notes, complaints = [HEADING + table.title_line()], [], []
    try:
        for name, data in streams.inputs(arguments().files, COMMAND, "binary records"):
            lines += lines_of(name, data, notes, complaints)
    except Complaint as complaint:
        complaints += complaint.args
    streams.write_output("".join(f"{line}\n" for line in lines).encode())
    for note in notes:
        streams.say(COMMAND, f"note: {note}")
    if complaints:
        raise Complaint(*complaints)
    return 0


if __name__ == "__main__":
    streams.run(COMMAND, main)
