"""Records: a 4-byte bit map and 8 bytes for each bit that stands, big-endian. One table says what they hold."""

import struct
from typing import NamedTuple, Optional

from streams import Complaint
from units import ALPHA_CC, FORCE, LENGTH, MOMENT, SITUATION, STRENGTH, Quantity

I64 = (-2**63, 2**63 - 1)
U32 = (0, 2**32 - 1)
INPUT_ROOM = 65_536  # bytes that the list program takes at once


class Column(NamedTuple):
    """A number of a record and the column of the text that holds it."""

    name: str
    bit: int
    quantity: Quantity
    missing: Optional[int]  # what a record without it means; None where it must stand
    width: int = 0          # characters that show-record gives it, in the sequence of its columns


COLUMNS = (
    Column("b", 0, LENGTH, None, 4),
    Column("h", 1, LENGTH, None, 4),
    Column("fck", 2, STRENGTH, None, 3),
    Column("fyk", 3, STRENGTH, None, 3),
    Column("N", 4, FORCE, 0, 10),
    Column("M", 5, MOMENT, 0, 14),
    Column("V", 6, FORCE, 0, 10),
)
SITUATION_COLUMN = Column("situation", 24, SITUATION, 1)  # no line needs these two, so they have no place in the sequence
ALPHA_CC_COLUMN = Column("alphacc", 25, ALPHA_CC, 100)
NUMBERS = (*COLUMNS, SITUATION_COLUMN, ALPHA_CC_COLUMN)
LINKS_BIT = 7
LAYER_BITS = range(8, 24)
FIELD_BITS = {column.bit for column in NUMBERS} | {LINKS_BIT} | set(LAYER_BITS)
MAP_BYTES, FIELD_BYTES = 4, 8


class Section(NamedTuple):
    """What a record holds: numbers by the names of their columns, the absent ones left out, links and layers."""

    numbers: dict
    links: list   # one (area, spacing), or none
    layers: list  # (depth, area) each

    def written(self, columns):
        """Those of the columns that a record has: not one whose number is what a missing one means."""
        return [column for column in columns if self.numbers.get(column.name, column.missing) != column.missing]

    @property
    def sequence(self):
        """The layers as a record has them: by rising depth, and equal depths by rising area."""
        return sorted(self.layers)

    @property
    def in_sequence(self):
        """The layers stand so; a reader refuses a record that has them otherwise (31)."""
        return self.layers == self.sequence


def packed(section):
    """The record as the engine writes it: layers in sequence on the lowest layer bits, and no number that is what a missing one means."""
    fields = {column.bit: struct.pack(">q", section.numbers[column.name]) for column in section.written(NUMBERS)}
    fields.update((LINKS_BIT, struct.pack(">II", *links)) for links in section.links)
    fields.update((bit, struct.pack(">II", *layer)) for bit, layer in zip(LAYER_BITS, section.sequence))
    bit_map = sum(1 << bit for bit in fields)
    return struct.pack(">I", bit_map) + b"".join(fields[bit] for bit in sorted(fields))


def bits_of_record(data, start):
    """The bits of the record's map, if the record is whole."""
    left = len(data) - start
    if left < MAP_BYTES:
        raise Complaint(f"{left} bytes are left; expected at least {MAP_BYTES}")
    bit_map, = struct.unpack_from(">I", data, start)
    bits = [bit for bit in range(8 * MAP_BYTES) if bit_map >> bit & 1]
    unknown = [str(bit) for bit in bits if bit not in FIELD_BITS]
    if unknown:
        raise Complaint(f"map {bit_map:08X} has bit {', '.join(unknown)}, which no field has; expected records as make-record writes them")
    length = MAP_BYTES + FIELD_BYTES * len(bits)
    if left < length:
        raise Complaint(f"map {bit_map:08X} calls for {length} bytes; {left} are left")
    return bits


def unpacked(data, start):
    """The section of the record that starts there, and where the next one starts."""
    names = {column.bit: column.name for column in NUMBERS}
    section, at = Section({}, [], []), start + MAP_BYTES
    for bit in bits_of_record(data, start):
        if bit in names:
            section.numbers[names[bit]], = struct.unpack_from(">q", data, at)
        else:
            pairs = section.links if bit == LINKS_BIT else section.layers
            pairs.append(struct.unpack_from(">II", data, at))
        at += FIELD_BYTES
    return section, at


def stored(name, data, complaints):
    """Section and bytes of each record of an input, up to the first that is broken, which goes to the complaints."""
    number, start = 1, 0
    while start < len(data):
        try:
            section, end = unpacked(data, start)
        except Complaint as complaint:
            complaints.append(f"{name}, record {number}, from byte {start}: {complaint}")
            return
        yield section, data[start:end]
        number, start = number + 1, end


def put_in_sequence(record):
    """The record with its layers in sequence on the bits that they have; no other byte is changed.

    The fields of the layers follow one another, and compare as bytes as depth and then area do.
    """
    bits = bits_of_record(record, 0)
    begin = MAP_BYTES + FIELD_BYTES * sum(bit < LAYER_BITS.start for bit in bits)
    end = begin + FIELD_BYTES * sum(bit in LAYER_BITS for bit in bits)
    layers = (record[at:at + FIELD_BYTES] for at in range(begin, end, FIELD_BYTES))
    return record[:begin] + b"".join(sorted(layers)) + record[end:]
