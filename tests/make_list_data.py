#!/usr/bin/env python3
"""Write the check list program's input and the output that it must have.

The input is the 60-byte example of document 01, "The list", then records
that meet every refusal after which a list goes on, with and without the links
of request 3 of 02, in both situations of request 8, with αcc of request 10, with
depths beyond 10h of request 11 and with layers in and out of the sequence of
request 6, and a 22 at the end.
Both files come from the second implementation (second.py), which is written
from the paper, and not from the program.
"""

from pathlib import Path

from second import (ACCIDENTAL, ACCIDENTAL_A, ACCIDENTAL_EXAMPLE, ACCIDENTAL_TIE, BEYOND_EXAMPLE, BOTH_A, BOTH_EXAMPLE,
                    BOTH_TIE, COLUMN, EXAMPLE, EXAMPLE_LIST, FAIL, HEADER, LARGE, LAYER_BITS, LINKED_EXAMPLE,
                    MANDATORY_BITS, MIXED, NO_LOAD, OPTIONAL_FIELDS, PASS, REDUCED_A, REDUCED_EXAMPLE, REDUCED_TIE,
                    SECTION_A, SEQUENCES, SIXTEEN, SMALL, SWAPPED_EXAMPLE, TIE, TURNED_A, TWO_EXAMPLE, TWO_LAYERS,
                    UNREADABLE, Layer, Load, assemble, at_bits, fields_written, laid_out, links_of, list_answers,
                    list_text, section_of, signed_bytes, swapped_at, with_links)

CRATE = Path(__file__).resolve().parent.parent / "crates" / "check_list"


def record(section=SECTION_A, load=NO_LOAD, **change):
    """The bytes of a section, in or out of range, its layers in sequence; `change` replaces fields of it."""
    return assemble(fields_written(section._replace(**change), load))


def with_layers(*layers):
    """Section A with other layers."""
    return record(section_of(300, 500, 30, 500, layers))


def present(*names):
    """Fields of these names that are there with what their absence means."""
    return {field.bit: signed_bytes(field.missing) for field in OPTIONAL_FIELDS if field.name in names}


def with_present(section, *names):
    """A section under no load, and these fields nevertheless."""
    return assemble({**fields_written(section, NO_LOAD), **present(*names)})


def with_gaps():
    """Layers at the second and the last of their bits, and N, M and V present as 0."""
    return at_bits(with_present(TWO_LAYERS, *Load._fields), LAYER_BITS[1], LAYER_BITS[-1])


def without(bit):
    """Section A with one of its fields missing."""
    fields = fields_written(SECTION_A, NO_LOAD)
    del fields[bit]
    return assemble(fields)


def accepted():
    """Records that are checked: both faces, both ends of N and of M, verdicts that fail, the largest sizes."""
    full = section_of(2_000, 2_000, 90, 600, [(1_999, 20_000)] * 16)
    high = section_of(250, 600, 80, 550, [(50, 400), (540, 1_200), (560, 1_300)])
    return [
        record(load=Load(0, -1, 0)),
        record(load=Load(-651_690, 0, 0)),
        record(load=Load(-651_690, 130_314_019, 0)),
        record(load=Load(-651_690, 130_314_020, 0)),
        record(load=Load(-651_690, 130_553_980, 0)),
        record(load=Load(-651_690, 130_553_981, 0)),
        record(load=Load(2_505_000, 0, 1)),
        record(load=Load(0, 257_986_051, 86_851)),
        record(load=Load(0, 257_986_052, -86_852)),
        record(full, Load(-100_000_000, 10**12, 500_000_000)),
        record(full, Load(0, -(10**12), 0)),
        record(high, Load(400_000, 300_000_000, 100_000)),
        with_layers((499, 1)),
        with_gaps(),
    ]


def linked(area, spacing, load=NO_LOAD, section=SECTION_A):
    """Section A, or another, with links."""
    return record(with_links(section, area, spacing), load)


def with_link_verdict():
    """Records with links and their verdict six: each of its three conditions at both sides."""
    high = SECTION_A._replace(fck=90)
    exact = section_of(250, 500, 25, 500, [(400, 1_500)])  # 20/100 has the least ratio, 300 is 0.75·dm
    return [
        (LINKED_EXAMPLE, PASS),
        (linked(101, 200, Load(0, 0, 222_308)), PASS),
        (linked(101, 200, Load(0, 0, 222_309)), FAIL),
        (linked(101, 200, Load(0, 0, -222_308)), PASS),
        (linked(101, 200, Load(0, 0, -222_309)), FAIL),
        (linked(500, 50, Load(0, 0, 641_520)), PASS),
        (linked(500, 50, Load(0, 0, 641_521)), FAIL),
        (linked(200, 100, Load(0, 0, 563_474)), PASS),
        (linked(200, 100, Load(0, 0, 563_475)), FAIL),
        (linked(101, 337), PASS),
        (linked(101, 338), FAIL),
        (linked(338, 101), PASS),
        (linked(53, 200), PASS),
        (linked(52, 200), FAIL),
        (linked(20, 100, section=exact), PASS),
        (linked(19, 100, section=exact), FAIL),
        (linked(60, 300, section=exact), PASS),
        (linked(61, 301, section=exact), FAIL),
        (linked(101, 37, Load(0, -1, 68_895)), PASS),
        (linked(101, 37, Load(0, -1, 68_896)), FAIL),
        (linked(101, 38, Load(0, -1, 0)), FAIL),
        (linked(500, 50, Load(0, 0, 1_399_680), high), PASS),
        (linked(500, 50, Load(0, 0, 1_399_681), high), FAIL),
        (record(TIE), FAIL),
        (with_present(with_links(SECTION_A, 101, 200), *Load._fields), PASS),  # N 0, so no 29
    ]


def refused():
    """A record for each refusal of Check, at the edge of its range, and for 23."""
    return [
        record(width=49, fck=31),              # 1
        record(width=-(2**63)),                # 1
        record(height=49),                     # 2
        record(fck=31),                        # 3
        record(fyk=601),                       # 4
        with_layers(),                         # 5
        with_layers((450, 0), (500, 1_500)),   # 6: asked of every layer before 7
        with_layers((450, 20_001)),            # 7
        record(load=Load(500_000_001, 0, 0)),  # 8
        record(load=Load(0, -(2**63), 0)),     # 9
        record(load=Load(0, 0, -500_000_001)),  # 10
        linked(0, 24),                         # 27: before 28
        linked(5_001, 200),                    # 27
        linked(101, 24),                       # 28
        linked(101, 1_001, Load(1, 0, 0)),     # 28: before 29
        linked(101, 200, Load(1, 0, 0)),       # 29
        linked(101, 200, Load(-651_691, 0, 0)),  # 29: before 11
        linked(0, 200, Load(0, 0, 500_000_001)),  # 10: before 27
        record(load=Load(-651_691, 0, 0)),     # 11
        record(load=Load(3_441_001, 0, 0)),    # 12
        record(load=Load(3_441_001, -1, 0)),   # 12: of the top, which M does not compress
        without(MANDATORY_BITS[0]),            # 23
        bytes(4),                              # 23: no bit stands
    ]


def accidental_with_line():
    """Records checked in the accidental situation and the line of each after its number: verdicts turn."""
    a = ACCIDENTAL_A
    return [
        (ACCIDENTAL_EXAMPLE, "0 1250 300000000 108564 450 1500 0 0 0 0 0 2"),
        (record(a, Load(0, 300_000_000, -108_564)), "0 1250 300000000 108564 450 1500 0 0 0 0 0 2"),
        (record(a, Load(0, 300_000_001, -108_565)), "0 1250 300000000 108564 450 1500 1 0 1 0 0 2"),
        (record(a, Load(0, -7_554_140, 0)), "0 405 7554140 17613 50 1500 0 1 0 0 0 2"),
        (record(a, Load(0, -7_554_141, 0)), "0 405 7554140 17613 50 1500 1 1 0 0 0 2"),
        (record(a, Load(-749_400, 149_850_023, 0)), "0 1 150149976 7395 450 1500 1 0 0 0 0 2"),
        (record(a, Load(-749_400, 149_850_024, 0)), "0 1 150149976 7395 450 1500 0 0 0 0 0 2"),
        (record(a, Load(465_599, 0, 0)), "0 2025 355335000 171419 450 1500 0 0 0 0 0 2"),
        (record(a, Load(465_600, 0, 0)), "0 2026 355387776 171420 450 1500 0 1 0 0 0 2"),
        (record(a, Load(750_001, 0, 0)), "0 2500 375000000 209814 450 1500 0 1 0 0 0 2"),
        (record(a, Load(3_105_000, 0, 1)), "0 5000 129000000 0 0 0 0 2 2 2 0 2"),
        (record(a, fck=90), "0 595 321812497 156570 450 1500 0 0 0 0 0 2"),
        (record(a, layers=(Layer(450, 300),)), "0 250 66000000 63491 450 300 0 0 0 0 0 2"),
        (linked(101, 200, Load(0, 0, 255_656), a), "0 1250 300000000 108564 450 1500 0 0 1 0 0 0"),
        (linked(101, 200, Load(0, 0, 255_657), a), "0 1250 300000000 108564 450 1500 0 0 1 0 0 1"),
        (record(ACCIDENTAL_TIE), "0 1500 132985600 58538 250 1500 0 1 0 0 0 0"),
    ]


def refused_line(number):
    """The line of a refused record after its number."""
    return f"{number} 0 0 0 0 0 2 2 2 2 2 2"


def situations_with_line():
    """The same for a present 1, for 32 and what stands beside it, and for 11, 10h + 1 and 12 when accidental."""
    return [
        (with_present(SECTION_A, "situation"), "0 1358 257986051 86851 450 1500 0 0 0 0 0 2"),
        (record(situation=0), refused_line(32)),
        (record(situation=3), refused_line(32)),
        (record(situation=-1), refused_line(32)),
        (record(situation=2**32 + 2), refused_line(32)),
        (record(fyk=399, situation=0), refused_line(4)),   # before 32
        (record(situation=3, count=0), refused_line(32)),  # before 5
        (linked(0, 200, section=SECTION_A._replace(situation=0)), refused_line(32)),  # before 27
        (record(ACCIDENTAL_A, Load(-749_401, 0, 0)), refused_line(11)),
        (record(ACCIDENTAL_A, Load(3_105_001, 0, 0)), "0 5001 128876389 0 0 0 0 2 2 2 0 2"),
        (record(ACCIDENTAL_A, Load(4_191_001, -1, 0)), refused_line(12)),
    ]


def reduced_with_line():
    """Records checked with αcc below 100 in both situations and the line of each: verdicts turn."""
    a = REDUCED_A
    return [
        (REDUCED_EXAMPLE, "0 1598 251755182 86851 450 1500 0 0 0 0 0 2"),
        (record(a, Load(0, 251_755_182, -86_851)), "0 1598 251755182 86851 450 1500 0 0 0 0 0 2"),
        (record(a, Load(0, 251_755_183, -86_852)), "0 1598 251755182 86851 450 1500 1 0 1 0 0 2"),
        (record(a, Load(0, -5_339_334, 0)), "0 428 5339334 14090 50 1500 0 1 0 0 0 2"),
        (record(a, Load(0, -5_339_335, 0)), "0 428 5339334 14090 50 1500 1 1 0 0 0 2"),
        (record(a, Load(-651_762, 130_332_016, 0)), "0 1 130535983 0 450 1500 1 0 0 0 0 2"),
        (record(a, Load(-651_762, 130_332_017, 0)), "0 1 130535983 0 450 1500 0 0 0 0 0 2"),
        (record(a, Load(174_437, 0, 0)), "0 2025 270061800 110399 450 1500 0 0 0 0 0 2"),
        (record(a, Load(174_438, 0, 0)), "0 2026 270097687 110400 450 1500 0 1 0 0 0 2"),
        (record(a, Load(1_000_000, 0, 155_701)), "0 3342 231371318 155701 450 1500 0 1 0 0 0 2"),
        (record(a, Load(1_000_000, 0, 155_702)), "0 3342 231371318 155701 450 1500 0 1 1 0 0 2"),
        (record(a, Load(2_145_000, 0, 1)), "0 5000 81000000 0 0 0 0 2 2 2 0 2"),
        (record(a, fck=90), "0 761 276073519 125256 450 1500 0 0 0 0 0 2"),
        (record(a, alpha_cc=80), "0 1698 249155986 86851 450 1500 0 0 0 0 0 2"),
        (record(a, alpha_cc=99), "0 1372 257647244 86851 450 1500 0 0 0 0 0 2"),
        (record(a, fck=16, alpha_cc=90), "0 2790 217675411 70414 450 1500 0 1 0 0 0 2"),  # f 960, not 959
        (record(a, fck=80, alpha_cc=90), "0 734 275941062 120425 450 1500 0 0 0 0 0 2"),  # f 4,080, not 4,079
        (linked(101, 200, Load(0, 0, 222_308), a), "0 1598 251755182 86851 450 1500 0 0 1 0 0 0"),
        (linked(500, 50, Load(0, 0, 545_292), a), "0 1598 251755182 86851 450 1500 0 0 1 0 0 0"),
        (linked(500, 50, Load(0, 0, 545_293), a), "0 1598 251755182 86851 450 1500 0 0 1 0 0 1"),
        (record(REDUCED_TIE), "0 1663 96894369 46831 250 1500 0 1 0 0 0 1"),
        (BOTH_EXAMPLE, "0 1470 293342640 108564 450 1500 0 0 0 0 0 2"),
        (record(BOTH_A, Load(0, 293_342_640, 108_564)), "0 1470 293342640 108564 450 1500 0 0 0 0 0 2"),
        (record(BOTH_A, Load(0, 293_342_641, 108_565)), "0 1470 293342640 108564 450 1500 1 0 1 0 0 2"),
        (record(BOTH_A, alpha_cc=80), "0 1562 290594995 108564 450 1500 0 0 0 0 0 2"),
        (record(BOTH_TIE), "0 1569 116595923 58538 250 1500 0 1 0 0 0 0"),
    ]


def alphas_with_line():
    """The same for a present 100, for 34 and what stands beside it, and for 11, 10h + 1 and 12 with αcc 85."""
    return [
        (with_present(SECTION_A, "alpha_cc"), "0 1358 257986051 86851 450 1500 0 0 0 0 0 2"),
        (with_present(ACCIDENTAL_A, "alpha_cc"), "0 1250 300000000 108564 450 1500 0 0 0 0 0 2"),
        (record(alpha_cc=79), refused_line(34)),
        (record(alpha_cc=101), refused_line(34)),
        (record(alpha_cc=0), refused_line(34)),
        (record(alpha_cc=-85), refused_line(34)),
        (record(alpha_cc=2**32 + 85), refused_line(34)),
        (record(situation=3, alpha_cc=79), refused_line(32)),  # before 34
        (record(alpha_cc=101, count=0), refused_line(34)),     # before 5
        (record(load=Load(500_000_001, 0, 0), alpha_cc=79), refused_line(34)),  # before 8
        (linked(0, 200, section=SECTION_A._replace(alpha_cc=101)), refused_line(34)),  # before 27
        (record(REDUCED_A, Load(-651_763, 0, 0)), refused_line(11)),
        (record(REDUCED_A, Load(2_145_001, 0, 0)), "0 5001 80905196 0 0 0 0 2 2 2 0 2"),
        (record(REDUCED_A, Load(2_991_001, 0, 0)), refused_line(12)),
    ]


def beyond_with_line():
    """Section A and the same turned over with depths beyond 10h and the line of each: 10h + 1, 30h, both ends of M."""
    a = SECTION_A
    return [
        (BEYOND_EXAMPLE, "0 5001 98894393 0 0 0 0 2 2 2 0 2"),
        (record(a, Load(2_505_001, -1, 0)), "0 3860 307561680 0 0 0 0 2 2 2 0 2"),  # the bottom up to 10h
        (record(a, Load(2_505_001, 98_894_394, 0)), "0 5001 98894393 0 0 0 1 2 2 2 0 2"),
        (record(a, Load(2_505_647, 0, 0)), "0 5001 98894393 0 0 0 0 2 2 2 0 2"),
        (record(a, Load(2_505_648, 0, 0)), "0 5002 98788776 0 0 0 0 2 2 2 0 2"),
        (record(a, Load(3_052_170, -1, 0)), "0 5000 250434000 0 0 0 1 2 2 2 0 2"),
        (record(a, Load(3_052_171, -1, 0)), "0 5001 250361980 0 0 0 1 2 2 2 0 2"),
        (record(a, Load(3_441_000, 0, 0)), "0 15000 -88200000 0 0 0 1 2 2 2 0 2"),
        (record(a, Load(3_441_000, -1, 0)), "0 5811 179413756 0 0 0 1 2 2 2 0 2"),
        (record(a, Load(3_441_000, -88_199_999, 1)), "0 5811 179413756 0 0 0 1 2 2 2 0 2"),
        (record(a, Load(3_441_000, -88_200_000, 1)), "0 5811 179413756 0 0 0 0 2 2 2 0 2"),
        (record(a, Load(3_441_000, -179_413_756, -1)), "0 5811 179413756 0 0 0 0 2 2 2 0 2"),
        (record(a, Load(3_441_000, -179_413_757, -1)), "0 5811 179413756 0 0 0 1 2 2 2 0 2"),
        (record(TURNED_A, Load(3_441_000, 88_200_000, 0)), "0 5811 179413756 0 0 0 0 2 2 2 0 2"),
        (record(TURNED_A, Load(3_441_001, 88_200_000, 0)), refused_line(12)),  # of the bottom
        (record(TURNED_A, Load(3_652_170, 130_434_000, 0)), refused_line(12)),  # the top alone reaches it
        (record(TURNED_A, Load(3_652_171, 130_434_000, 0)), refused_line(12)),  # and this neither
        (record(TURNED_A, Load(3_652_170, -1, 0)), refused_line(12)),
    ]


def columns_with_line():
    """Other sections with depths beyond 10h: both faces, sizes, classes, situations, αcc, a layer in tension."""
    of_class = ((55, 5_801_925, -87_885_000), (60, 6_150_818, -90_163_637), (70, 6_759_729, -91_945_946),
                (80, 7_286_472, -97_394_595), (90, 7_702_320, -100_464_000))
    high = [(record(load=Load(n, 0, 0), fck=fck), f"0 15000 {mrd} 0 0 0 1 2 2 2 0 2") for fck, n, mrd in of_class]
    return high + [
        (record(load=Load(7_702_321, 0, 0), fck=90), refused_line(12)),
        (record(COLUMN, Load(1_927_008, 0, 0)), "0 2999 63232912 0 0 0 0 2 2 2 0 2"),
        (record(COLUMN, Load(1_927_009, 0, 0)), "0 3001 63124534 0 0 0 0 2 2 2 0 2"),
        (record(COLUMN, Load(2_380_299, 10_646_644, 0)), "0 5629 10646644 0 0 0 0 2 2 2 0 2"),
        (record(COLUMN, Load(2_380_300, -10_048_000, 0)), "0 5875 10048000 0 0 0 0 2 2 2 0 2"),
        (record(COLUMN, Load(2_380_300, 10_048_001, 0)), "0 5875 10048000 0 0 0 1 2 2 2 0 2"),
        (record(COLUMN, Load(2_380_301, 0, 0)), refused_line(12)),
        (record(MIXED, Load(4_500_000, 402_077_838, 16_572)), "0 2203 473019290 16572 450 100 0 1 0 0 1 2"),
        (record(MIXED, Load(4_500_000, -402_077_838, 0)), "0 5035 -402077838 0 0 0 1 2 2 2 1 2"),
        (record(SMALL, Load(135_400, -678_553, 0)), "0 619 678553 0 0 0 0 2 2 2 1 2"),
        (record(SMALL, Load(135_401, 0, 0)), refused_line(12)),
        (record(LARGE, Load(319_573_328, 23_026_986_664, 0)), "0 60000 23026986664 0 0 0 0 2 2 2 1 2"),
        (record(LARGE, Load(319_573_329, 0, 0)), refused_line(12)),
        (record(SIXTEEN, Load(7_146_330, 0, 0)), "0 6999 582466659 0 0 0 0 2 2 2 0 2"),
        (record(SIXTEEN, Load(7_146_331, 0, 0)), "0 7001 582109409 0 0 0 0 2 2 2 0 2"),
        (record(SIXTEEN, Load(8_368_640, -1, 0)), "0 21000 -118540800 0 0 0 1 2 2 2 0 2"),
        (record(ACCIDENTAL_A, Load(4_191_000, 0, 0)), "0 15000 -88200000 0 0 0 1 2 2 2 0 2"),
        (record(ACCIDENTAL_A, Load(4_191_000, -220_884_600, 0)), "0 5735 220884600 0 0 0 0 2 2 2 0 2"),
        (record(REDUCED_A, Load(2_991_000, -178_805_843, 0)), "0 5733 178805843 0 0 0 0 2 2 2 0 2"),
        (record(BOTH_A, Load(2_655_001, 0, 0)), "0 5001 106389892 0 0 0 0 2 2 2 0 2"),
        (record(BOTH_A, Load(3_628_500, -219_670_590, 0)), "0 5645 219670590 0 0 0 0 2 2 2 0 2"),
        (record(BOTH_A, Load(3_628_501, -1, 0)), refused_line(12)),
    ]


def sequences_with_line():
    """Records with their layers in sequence and out of it and the line of each: 31 and what stands beside it."""
    def typed(*layers, load=NO_LOAD, **change):
        return laid_out(section_of(300, 500, 30, 500, layers)._replace(**change), load)

    top, low = (50, 600), (450, 1_500)
    of_a, of_two = "0 1358 257986051 86851 450 1500 0 0 0 0 0 2", "0 946 266374148 86851 450 1500 0 0 0 0 0 2"
    full = SIXTEEN._replace(links=links_of(101, 200), situation=ACCIDENTAL, alpha_cc=85)
    return [
        (TWO_EXAMPLE, of_two),
        (SWAPPED_EXAMPLE, refused_line(31)),
        (at_bits(TWO_EXAMPLE, 9, 23), of_two),
        (at_bits(SWAPPED_EXAMPLE, 9, 23), refused_line(31)),
        (typed((450, 750), (450, 750)), of_a),  # the area of A in two layers: equal ones
        (typed((450, 749), (450, 751)), of_a),
        (typed((450, 751), (450, 749)), refused_line(31)),
        (typed((450, 750), (449, 750)), refused_line(31)),
        (typed((449, 800), (450, 700)), "0 1358 257638227 86764 449 1500 0 0 0 0 0 2"),  # by rising depth alone
        (typed((449, 700), (449, 800), (448, 1)), refused_line(31)),
        (laid_out(LARGE), refused_line(31)),  # whose record is among the columns
        (laid_out(swapped_at(full, 0)), refused_line(31)),
        (laid_out(swapped_at(full, 14)), refused_line(31)),
        (typed((500, 1_500), top), refused_line(6)),         # before 31
        (typed(low, (0, 600)), refused_line(6)),             # before 31
        (typed((450, 0), top), refused_line(7)),             # before 31
        (typed((450, 1_500), (450, 0)), refused_line(7)),    # before 31
        (typed(low, top, situation=3), refused_line(32)),    # before 31
        (typed(low, top, load=Load(500_000_001, 0, 0)), refused_line(31)),   # before 8
        (typed(low, top, load=Load(0, 10**12 + 1, 0)), refused_line(31)),    # before 9
        (typed(low, top, load=Load(0, 0, -500_000_001)), refused_line(31)),  # before 10
        (typed(low, top, links=links_of(0, 200)), refused_line(31)),         # before 27
        (typed(low, top, links=links_of(101, 24)), refused_line(31)),        # before 28
        (typed(low, top, links=links_of(101, 200), load=Load(1, 0, 0)), refused_line(31)),  # before 29
        (typed(low, top, load=Load(-500_000_000, 0, 0)), refused_line(31)),  # before 11
    ]


def main():
    """Write the two files, after a look at what they must have."""
    verdicts = with_link_verdict()
    lines = (accidental_with_line() + situations_with_line() + reduced_with_line() + alphas_with_line()
             + beyond_with_line() + columns_with_line() + sequences_with_line())
    data = b"".join([EXAMPLE, *accepted(), *(piece for piece, _ in verdicts), *refused(),
                     *(piece for piece, _ in lines), record()[:-1]])
    text = list_text(data)
    assert len(EXAMPLE) == 60
    assert text.startswith(EXAMPLE_LIST)
    for piece, sixth in verdicts:
        assert [report.verdicts[5] for _, _, report in list_answers(piece)] == [sixth], piece.hex()
    for piece, line in lines:
        assert list_text(piece) == f"{HEADER}1 {line}\n", piece.hex()
    met = {report.refusal for _, _, report in list_answers(data)}
    ended_by = {*UNREADABLE} - {22}
    assert met == {0, *SEQUENCES["Read a record"], *SEQUENCES["Check"]} - ended_by, met
    (CRATE / "stdin").write_bytes(data)
    (CRATE / "stdout").write_text(text)
    print(f"{len(data)} bytes, {text.count(chr(10)) - 1} records, refusals {sorted(met)}")


if __name__ == "__main__":
    main()
