"""Inputs of the list program: records cut, spoiled, spread out or too many.

Each run is one standard input with the refusals that documents 01 and 02 state
for its lines, in order.
"""

from itertools import combinations, product
from typing import NamedTuple, Optional

import second
from samples import (FAILINGS, I64_MAX, I64_MIN, SIXTEEN, U32_MAX, UNDER_LOAD, layer_samples, linked, record,
                     typed_sections, with_layer)
from second import (ACCIDENTAL, ACCIDENTAL_EXAMPLE, ALPHA_CC_BIT, BOTH_EXAMPLE, EXAMPLE, LAYER_BITS, LINK_BIT,
                    LINKED_EXAMPLE, REDUCED_EXAMPLE, SECTION_TESTS, SEQUENCE_TEST, SITUATION_BIT, SWAPPED_EXAMPLE,
                    Load, at_bits, laid_out, swapped_at, with_signed)

ROOM = second.INPUT_ROOM
MAP_0 = bytes(4)


class Run(NamedTuple):
    """One standard input, the refusals of its lines, and how it is delivered."""

    label: str
    data: bytes
    refusals: Optional[tuple] = None
    chunk: Optional[int] = None  # bytes at a time through a pipe, or all at once


def fields_of(data):
    """The 8 bytes of each bit of a whole record."""
    return second.fields_read(data, second.bits_that_stand(data))


# Every field that a record can have: with links N is 0, so the writer alone never writes it.
FULL = with_signed(record(linked(SIXTEEN), Load(0, -2_000, 3_000)), n=0, situation=ACCIDENTAL, alpha_cc=85)
assert len(FULL) == second.LONGEST_RECORD


def choices(bits):
    """Every choice of the bits, none and all included."""
    return [chosen for number in range(len(bits) + 1) for chosen in combinations(bits, number)]


def cut_runs():
    """Cut at every byte: 20 below 4 bytes, 22 below the length."""
    for whole in (EXAMPLE, LINKED_EXAMPLE, ACCIDENTAL_EXAMPLE, REDUCED_EXAMPLE, FULL):
        for size in range(len(whole) + 1):
            refusal = 20 if size < 4 else 22 if size < len(whole) else 0
            last = (refusal,) if size else ()  # nothing left is no record
            yield Run(f"cut at {size} of {len(whole)}", EXAMPLE + whole[:size], (0, *last))


def forbidden_bit_runs():
    """Refusal 21 for each bit of no field, before 22 and before 23."""
    for bit in second.FORBIDDEN_BITS:
        spoiled = second.assemble({**fields_of(EXAMPLE), bit: second.signed_bytes(1)})
        bare = (1 << bit).to_bytes(4, "big")
        yield Run(f"bit {bit}", EXAMPLE + spoiled + EXAMPLE, (0, 21))
        yield Run(f"bit {bit}, cut", EXAMPLE + spoiled[:20], (0, 21))
        yield Run(f"bit {bit} alone, cut", bare, (21,))
        yield Run(f"bit {bit} alone, whole", bare + EXAMPLE, (21,))


def missing_bit_runs():
    """Refusal 23 for each choice of absent b, h, fck, fyk; 22 comes before it."""
    for absent in choices(second.MANDATORY_BITS):
        if absent:
            kept = {bit: value for bit, value in fields_of(FULL).items() if bit not in absent}
            spoiled = second.assemble(kept)
            yield Run(f"absent {absent}", spoiled + EXAMPLE, (23, 0))
            yield Run(f"absent {absent}, cut", EXAMPLE + spoiled[:-1], (0, 22))
    first, *others = second.SIGNED_BITS
    out_of_range = {bit: second.signed_bytes(I64_MAX) for bit in others}
    yield Run(f"23 for bit {first} before the section tests", second.assemble(out_of_range) + EXAMPLE, (23, 0))


def leftover_runs():
    """Bytes after the last record, and records of a map alone."""
    for size in (1, 2, 3):
        yield Run(f"{size} trailing bytes", EXAMPLE + bytes(size), (0, 20))
        yield Run(f"{size} bytes only", b"\xff" * size, (20,))
    yield Run("map 0", MAP_0, (23,))
    yield Run("map 0 between", MAP_0 + EXAMPLE + MAP_0 + EXAMPLE, (23, 0, 23, 0))
    yield Run("map of all ones", b"\xff" * 300, (21,))
    yield Run("empty input", b"", ())


def gap_runs():
    """'Layer bits may have gaps; layers are taken by rising bit.'"""
    places = LAYER_BITS
    for bits in (places[-1:], (places[0], places[-1]), places[1:3], places[-2:], places[::2],
                 places[1::2], (10, 13, 14, 20), places[1:]):
        yield Run(f"layer bits {tuple(bits)}", at_bits(FULL, *bits) + at_bits(FULL, *places[:len(bits)]), (0, 0))
    yield Run("no layer bit", at_bits(FULL) + EXAMPLE, (5, 0))


def present_zero_runs():
    """'a present 0 is read too': each choice of N, M, V, situation and αcc there with what its absence means."""
    optional = {field.bit: second.signed_bytes(field.missing) for field in second.OPTIONAL_FIELDS}
    for whole in (EXAMPLE, LINKED_EXAMPLE):  # with links an N that is there is no 29 as long as it is 0
        always = {bit: value for bit, value in fields_of(whole).items() if bit not in optional}
        for present in choices(tuple(optional)):
            given = {bit: optional[bit] for bit in present}
            yield Run(f"present {present}", second.assemble({**always, **given}), (0,))


def with_links(area, spacing, **signed):
    """The example with a link field of these numbers, in range or not; `signed` adds fields by name."""
    fields = fields_of(with_signed(EXAMPLE, **signed))
    return second.assemble({**fields, LINK_BIT: second.pair_bytes(area, spacing)})


def link_runs():
    """Bit 7 as a field (02, request 3): after 27, 28 and 29 the list goes on."""
    for area, spacing, refusal in (
            (0, 0, 27), (0, 200, 27), (1, 25, 0), (101, 338, 0), (338, 101, 0), (5_000, 1_000, 0), (5_001, 200, 27),
            (5_001, 24, 27), (U32_MAX, 200, 27), (101, 0, 28), (101, 24, 28), (101, 1_001, 28), (101, U32_MAX, 28)):
        yield Run(f"links {area}/{spacing}", with_links(area, spacing) + EXAMPLE, (refusal, 0))
    for n, refusal in ((-1, 29), (0, 0), (1, 29), (-651_691, 29), (2_505_001, 29), (3_441_001, 29), (500_000_001, 8),
                       (I64_MAX, 8)):
        yield Run(f"links, N {n}", with_links(101, 200, n=n) + LINKED_EXAMPLE, (refusal, 0))
    yield Run("10 before 27", with_links(0, 0, v=500_000_001) + EXAMPLE, (10, 0))
    yield Run("27 before 29", with_links(0, 200, n=1) + EXAMPLE, (27, 0))
    yield Run("28 before 29", with_links(101, 24, n=1) + EXAMPLE, (28, 0))


class Numbers(NamedTuple):
    """A signed field after the layers, the refusal of its test, and numbers about it."""

    name: str
    refusal: int
    inside: tuple
    outside: tuple  # some of them a number inside in one byte or in the low four alone
    earlier: tuple  # fields that an earlier test refuses, with its number


NUMBERS = (
    Numbers("situation", 32, (1, 2),
            (I64_MIN, -2, -1, 0, 3, 255, 256, 257, 2**32 + 1, 2**32 + 2, 2**56, 2**57, I64_MAX),
            (({"fyk": 399}, 4), ({"fyk": 601}, 4))),
    Numbers("alpha_cc", 34, (80, 81, 85, 99, 100),
            (I64_MIN, -100, -85, -80, -1, 0, 1, 2, 79, 101, 85 * 2**8, 2**8 + 85, 2**32 + 85, 85 * 2**56, I64_MAX),
            (({"fyk": 601}, 4), ({"situation": 0}, 32), ({"situation": 3}, 32))),
)


def number_runs(field):
    """Bit 24 or 25 as a field (02, requests 8 and 10): after 32 and 34 the list goes on."""
    name, number, inside, outside, earlier = field
    for value in (*inside, *outside):
        refusal = 0 if value in inside else number
        yield Run(f"{name} {value}", with_signed(EXAMPLE, **{name: value}) + EXAMPLE, (refusal, 0))
    no_layer = at_bits(EXAMPLE)
    for value in inside:
        yield Run(f"no layer, {name} {value}", with_signed(no_layer, **{name: value}) + EXAMPLE, (5, 0))
    for value in {0, inside[0] - 1, inside[-1] + 1}:
        wrong = {name: value}
        for spoiled, before in earlier:
            yield Run(f"{before} before {number}", with_signed(EXAMPLE, **spoiled, **wrong) + EXAMPLE, (before, 0))
        yield Run(f"{number} before 5", with_signed(no_layer, **wrong) + EXAMPLE, (number, 0))
        yield Run(f"{number} before 8", with_signed(EXAMPLE, n=I64_MAX, **wrong) + EXAMPLE, (number, 0))
        yield Run(f"{number} before 27", with_links(0, 200, **wrong) + EXAMPLE, (number, 0))


def situation_and_alpha_runs():
    """Both of these fields, and one case after the other."""
    for field in NUMBERS:
        yield from number_runs(field)
    yield Run("one case after the other", (ACCIDENTAL_EXAMPLE + EXAMPLE + REDUCED_EXAMPLE + BOTH_EXAMPLE) * 3, (0,) * 12)


def optional_bit_runs():
    """The map's tests come before those of links, situation and αcc; bit 7, 24 or 25 alone is no longer 21."""
    for bit, number, spoiled in ((LINK_BIT, 27, with_links(0, 0)),
                                 (SITUATION_BIT, 32, with_signed(EXAMPLE, situation=0)),
                                 (ALPHA_CC_BIT, 34, with_signed(EXAMPLE, alpha_cc=0))):
        bare = second.assemble({bit: bytes(8)})
        yield Run(f"bit {bit} alone", bare + EXAMPLE, (23, 0))
        yield Run(f"bit {bit} alone, cut", EXAMPLE + bare[:-1], (0, 22))
        yield Run(f"22 before {number}", EXAMPLE + spoiled[:-1], (0, 22))
        for unknown in second.FORBIDDEN_BITS:
            worse = second.assemble({**fields_of(spoiled), unknown: bytes(8)})
            yield Run(f"bit {unknown} before {number}", EXAMPLE + worse + EXAMPLE, (0, 21))


def far_apart(data, count):
    """The record with its layers, so many, as far apart as the bits allow."""
    return at_bits(data, *LAYER_BITS[::(len(LAYER_BITS) - 1) // (count - 1)][:count])


def sequence_runs():
    """31 (02, request 6): layers as they stand, with and without gaps between their bits; the list goes on."""
    for label, section, taken in typed_sections():
        data = laid_out(section, UNDER_LOAD)
        layouts = dict.fromkeys((data, far_apart(data, section.count)))
        refusals = (0 if taken else SEQUENCE_TEST,) * len(layouts)
        yield Run(label, b"".join(layouts) + EXAMPLE, (*refusals, 0))


def sequence_order_runs():
    """31 together with every other test of a section that has layers."""
    for number, place in product([number for number in FAILINGS if number != 5], (0, 7, 14)):
        section, load = FAILINGS[number](SIXTEEN, UNDER_LOAD)
        first, then = (number, SEQUENCE_TEST) if number in SECTION_TESTS else (SEQUENCE_TEST, number)
        yield Run(f"{first} before {then}, layers {place} and {place + 1} swapped",
                  laid_out(swapped_at(section, place), load) + EXAMPLE, (first, 0))
    for sample in layer_samples():
        if sample.refusal:  # and most of these layers are out of sequence too
            yield Run(f"{sample.label}, as it stands", laid_out(sample.section) + EXAMPLE, (sample.refusal, 0))
    yield Run("6 of the first layer before 31 of the last two",
              laid_out(swapped_at(with_layer(SIXTEEN, 0, depth=0), 14)) + EXAMPLE, (6, 0))
    yield Run("7 of the last layer before 31 of the first two",
              laid_out(swapped_at(with_layer(SIXTEEN, 15, area=20_001), 0)) + EXAMPLE, (7, 0))


def map_before_sequence_runs():
    """20, 21, 22 and 23 of a record whose layers are out of sequence."""
    for size in range(1, len(SWAPPED_EXAMPLE)):
        refusal = 20 if size < 4 else 22
        yield Run(f"31 cut at {size}", SWAPPED_EXAMPLE + SWAPPED_EXAMPLE[:size], (SEQUENCE_TEST, refusal))
    fields = fields_of(SWAPPED_EXAMPLE)
    for bit in second.FORBIDDEN_BITS:
        yield Run(f"bit {bit} before 31", second.assemble({**fields, bit: bytes(8)}) + EXAMPLE, (21,))
    for absent in second.MANDATORY_BITS:
        kept = {bit: value for bit, value in fields.items() if bit != absent}
        yield Run(f"absent {absent} before 31", second.assemble(kept) + EXAMPLE, (23, 0))


def size_runs():
    """Exactly 65,536 bytes are taken; one more is refusal 26."""
    copies = ROOM // len(EXAMPLE)
    rest = ROOM - copies * len(EXAMPLE)
    filled = EXAMPLE * copies + MAP_0 * (rest // 4)
    yield Run("65,536 bytes", filled, (0,) * copies + (23,) * (rest // 4))
    yield Run("65,536 bytes of map 0", MAP_0 * (ROOM // 4), (23,) * (ROOM // 4))
    yield Run("65,536 bytes, last cut", EXAMPLE * copies + EXAMPLE[:rest], (0,) * copies + (22,))
    yield Run("65,535 bytes", filled[:-1], (0,) * copies + (23,) * (rest // 4 - 1) + (20,))
    for more in (1, 4, 60, ROOM):
        yield Run(f"65,536 + {more} bytes", filled + (EXAMPLE * ROOM)[:more], (26,))
    yield Run("65,537 bytes of ones", b"\xff" * (ROOM + 1), (26,))


def slow_runs():
    """Input that arrives through a pipe a few bytes at a time."""
    for chunk in (1, 3, 7, 61):
        yield Run(f"{chunk} bytes at a time", EXAMPLE + FULL + EXAMPLE, (0, 0, 0), chunk)
    yield Run("cut, 5 bytes at a time", EXAMPLE + FULL[:-1], (0, 22), 5)
    filled = MAP_0 * (ROOM // 4)
    yield Run("65,536 bytes in pieces", filled, (23,) * (ROOM // 4), 4_093)
    yield Run("65,537 bytes, the last one late", filled + b"\0", (26,), ROOM)


def all_runs():
    """Every fixed run of this file."""
    for group in (cut_runs, forbidden_bit_runs, missing_bit_runs, leftover_runs, gap_runs,
                  present_zero_runs, link_runs, situation_and_alpha_runs, optional_bit_runs, sequence_runs,
                  sequence_order_runs, map_before_sequence_runs, size_runs, slow_runs):
        yield from group()
