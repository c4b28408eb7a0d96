"""Sections and loads at both sides of every bound of documents 01 and 02.

Each sample names the refusal that the paper gives it, or None where only the
comparison of the two implementations decides; so with the sixth verdict and
the cotangent. Nothing here is random.
"""

from itertools import combinations, permutations, product
from math import ceil, floor, isqrt
from typing import NamedTuple, Optional

import second
from second import ACCIDENTAL, FAIL, NOT_REACHED, PASS, SIXTEEN, Links, Load, Section

I64_MIN, I64_MAX = -2**63, 2**63 - 1
U32_MAX = 2**32 - 1
N_MOST = V_MOST = 500_000_000
M_MOST = 10**12


class Sample(NamedTuple):
    """A section under a load, and what the papers state for it."""

    label: str
    section: Section
    load: Load
    refusal: Optional[int] = None
    sixth: Optional[int] = None      # verdict six of request 3 of 02
    cotangent: Optional[int] = None  # of the same request, in tenths


def record(section, load):
    """The record that carries them, in range or not, its layers in the writer's sequence (02, request 6)."""
    return second.assemble(second.fields_written(section, load))


SHALLOW = second.section_of(300, 500, 30, 500, [(25, 1_500)])
THREE = second.section_of(400, 700, 30, 500, [(640, 1_900), (60, 800), (350, 300)])
HIGH = SIXTEEN._replace(fck=70, fyk=463)
UNDER_LOAD = Load(0, 200_000_000, 80_000)


def with_layer(section, place, **change):
    """The section with one place changed."""
    layers = list(section.layers)
    layers[place] = layers[place]._replace(**change)
    return section._replace(layers=tuple(layers))


def linked(section, **change):
    """The section with the links that it has, or 101/200, and some of their numbers changed."""
    links = section.links if second.has_links(section) else second.links_of(101, 200)
    return section._replace(links=links._replace(**change))


def in_each_case(*sections):
    """The sections in the situations of request 8 of 02 without and then with an αcc of request 10, all in one
    case and then all in the next: situation 1, 2, then 1 and 2 with αcc 85."""
    return [section._replace(situation=situation, alpha_cc=alpha_cc)
            for alpha_cc, situation in product((100, 85), second.FACTORS) for section in sections]


def wild(ordinary):
    """Values far outside; one equals the ordinary value in its low 32 bits."""
    return (I64_MIN, -ordinary, -1, 0, 2**32 + ordinary, I64_MAX)


def field_samples():
    """Tests 1, 2, 4, 32 and 34 at both sides of their bounds."""
    bounds = {"width": (1, 50, 2_000), "height": (2, 50, 2_000), "fyk": (4, 400, 600), "situation": (32, 1, 2),
              "alpha_cc": (34, 80, 100)}
    for field, (number, least, most) in bounds.items():
        inside = sorted({least, least + 1, most - 1, most})
        for value in (least - 1, *inside, most + 1, *wild(most)):
            yield Sample(f"{field} {value}", SHALLOW._replace(**{field: value}),
                         second.NO_LOAD, 0 if value in inside else number)


def class_samples():
    """Test 3: all 14 classes and their neighbours."""
    for known in second.CLASSES:
        for value in (known - 1, known, known + 1):
            yield Sample(f"fck {value}", SHALLOW._replace(fck=value), UNDER_LOAD,
                         0 if value in second.CLASSES else 3)
    for value in wild(30):
        yield Sample(f"fck {value}", SHALLOW._replace(fck=value), UNDER_LOAD, 3)


def count_samples():
    """Test 5 as a record can meet it: no layer, then 1 to 16 of them."""
    for count in range(17):
        for section in in_each_case(SIXTEEN._replace(count=count)):
            yield Sample(f"{count} layers", section, UNDER_LOAD, 0 if count else 5)


def layer_samples():
    """Tests 6 and 7 in the first, a middle and the last layer."""
    for place in (0, 7, 15):
        for depth in (0, 1, 699, 700, 701, U32_MAX):
            yield Sample(f"layer {place} at {depth}", with_layer(SIXTEEN, place, depth=depth),
                         second.NO_LOAD, 0 if 1 <= depth <= 699 else 6)
        for area in (0, 1, 20_000, 20_001, U32_MAX):
            yield Sample(f"layer {place} of {area}", with_layer(SIXTEEN, place, area=area),
                         second.NO_LOAD, 0 if 1 <= area <= 20_000 else 7)
    for height in (50, 2_000):
        for depth in (height - 1, height):
            deep = second.section_of(300, height, 30, 500, [(depth, 100)])
            yield Sample(f"depth {depth} in h {height}", deep, second.NO_LOAD,
                         0 if depth < height else 6)


def load_samples():
    """Tests 8, 9 and 10; within the range N of 500 MN is beyond any section."""
    for field, number, most in (("n", 8, N_MOST), ("m", 9, M_MOST), ("v", 10, V_MOST)):
        for value in (-most - 1, -most, most, most + 1, I64_MIN, I64_MAX):
            reached = (11 if value < 0 else 12) if field == "n" else 0
            yield Sample(f"{field} {value}", SIXTEEN, second.NO_LOAD._replace(**{field: value}),
                         reached if abs(value) <= most else number)


def reference_samples():
    """The cases of section A that are loads or depths, with their refusals."""
    forces = (  # the least N, the last up to 10h of top and bottom, the last of all of top and bottom
        (-651_690, (2_505_000, 3_052_170), (3_441_000, 3_652_170)),
        (-749_400, (3_105_000, 3_750_000), (4_191_000, 4_500_000)),
        (-651_762, (2_145_000, 2_692_170), (2_991_000, 3_202_170)),
        (-749_490, (2_655_000, 3_300_000), (3_628_500, 3_937_500)))
    for a, (least, at_10h, (last, of_bottom)) in zip(in_each_case(second.SECTION_A), forces):
        for n, m in ((0, 0), (0, -1), (least, 0)):
            yield Sample(f"A, N {n}, M {m}", a, Load(n, m, 0), 0)
        yield Sample(f"A, N {least - 1}", a, Load(least - 1, 0, 0), 11)
        for m in (0, -1):
            for n in (*at_10h, *(force + 1 for force in at_10h), last):
                yield Sample(f"A, N {n}, M {m}", a, Load(n, m, 0), 0)
            for n in (last + 1, of_bottom, of_bottom + 1):
                yield Sample(f"A, N {n}, M {m}", a, Load(n, m, 0), 12)
    a = second.SECTION_A
    yield Sample("A, depth 500", with_layer(a, 0, depth=500), UNDER_LOAD, 6)
    yield Sample("A, depth 499", with_layer(a, 0, depth=499), UNDER_LOAD, 0)
    yield Sample("A, width 49, fck 31", a._replace(width=49, fck=31), UNDER_LOAD, 1)


def least_force(section):
    """The least N that is no 11: the force at depth 1, the same for both faces."""
    return ceil(second.internal_force(section, 1))


def faces_of(section):
    """The section as its top and as its bottom sees it."""
    return second.upright(section), second.turned_over(section)


def last_up_to_10h(seen):
    """The last N whose depth is one up to 10h."""
    return floor(second.force_at_end(seen, second.greatest_depth(seen)))


def last_force(seen):
    """The last N that is no 12 for a face: its greatest force, which need not lie at 30h."""
    return max(last_up_to_10h(seen), second.greatest_force_beyond(seen))


def last_of_both(section):
    """The last N that is no 12 in Check."""
    return min(last_force(seen) for seen in faces_of(section))


# Request 11 of 02: forces that fall again, late and soon, one that is level, one that falls from 10h on, a face with
# tension layers while the other's depth is beyond 10h, the lowest and the highest section.
COLUMNS = (second.TURNED_A, second.HUMP, second.COLUMN, second.FALLING, second.MIXED, second.SMALL, second.LARGE)


def end_samples():
    """Tests 11 and 12 at the very newton of both faces, whichever M compresses, and N at their forces at 10h."""
    for section in in_each_case(second.SECTION_A, SHALLOW, SIXTEEN, HIGH, *COLUMNS):
        least, last = least_force(section), last_of_both(section)
        forces = dict.fromkeys(force(seen) for force in (last_up_to_10h, last_force) for seen in faces_of(section))
        for m in (0, -1):
            for n in (least - 1, least, least + 1):
                yield Sample(f"depth 1, N {n}, M {m}", section, Load(n, m, 0), 0 if n >= least else 11)
            for n in (force + more for force in forces for more in (-1, 0, 1)):
                yield Sample(f"10h or the end, N {n}, M {m}", section, Load(n, m, 0), 0 if n <= last else 12)


# One way to fail each test of Check alone, by its number; 6 fails late and 7
# early, so that a test which does not ask about all layers first answers 7, and
# both leave layers in sequence that were so (02, request 6); 29 keeps an N that is
# not 0, so that it can stand before 11 and 12; for 32 the situation is 0, which is
# not the 1 that a missing one means, and so with 34.
FAILINGS = {
    1: lambda section, load: (section._replace(width=49), load),
    2: lambda section, load: (section._replace(height=2_001), load),
    3: lambda section, load: (section._replace(fck=31), load),
    4: lambda section, load: (section._replace(fyk=601), load),
    32: lambda section, load: (section._replace(situation=0), load),
    34: lambda section, load: (section._replace(alpha_cc=0), load),
    5: lambda section, load: (section._replace(count=0), load),
    6: lambda section, load: (with_layer(section, 15, depth=U32_MAX), load),
    7: lambda section, load: (with_layer(section, 0, area=0), load),
    8: lambda section, load: (section, load._replace(n=N_MOST + 1)),
    9: lambda section, load: (section, load._replace(m=-M_MOST - 1)),
    10: lambda section, load: (section, load._replace(v=V_MOST + 1)),
    27: lambda section, load: (linked(section, area=0), load),
    28: lambda section, load: (linked(section, spacing=1_001), load),
    29: lambda section, load: (linked(section), load._replace(n=load.n or -1)),
    11: lambda section, load: (section, load._replace(n=-N_MOST)),
    12: lambda section, load: (section, load._replace(n=N_MOST)),
}


def order_samples():
    """Two tests fail at once: 'the first test of a call's sequence'."""
    for number in second.SEQUENCES["Check"]:
        yield Sample(f"{number} alone", *FAILINGS[number](SIXTEEN, UNDER_LOAD), number)
    for earlier, later in combinations(second.SEQUENCES["Check"], 2):
        if (earlier, later) != (11, 12):  # N cannot lie below and above
            spoiled = FAILINGS[later](SIXTEEN, UNDER_LOAD)
            yield Sample(f"{earlier} before {later}", *FAILINGS[earlier](*spoiled), earlier)
    both_ways = with_layer(with_layer(SIXTEEN, 3, depth=0), 3, area=0)
    yield Sample("6 before 7 in one layer", both_ways, UNDER_LOAD, 6)


def size_factor_samples():
    """Every dm from 1 to 1,999: the printed table of K, and 2,000 below it."""
    for depth in range(1, 2_000):
        deep = second.section_of(1_000, 2_000, 30, 500, [(depth, 1_000)])
        yield Sample(f"dm {depth}", deep, second.NO_LOAD, 0)


def grade_samples():
    """Every αcc with every concrete class in both situations, and every fyk in turn in each of them; c is the
    cap, so that g tells as f does."""
    steels = range(400, 601)
    for situation in second.FACTORS:
        for place, (alpha_cc, fck) in enumerate(product(second.ALPHAS, second.CLASSES)):
            fyk = steels[place % len(steels)]
            section = THREE._replace(fck=fck, fyk=fyk, situation=situation, alpha_cc=alpha_cc)
            cap = second.axial_force_for_shear(section, N_MOST)
            yield Sample(f"fck {fck}, fyk {fyk}, αcc {alpha_cc}", section, Load(cap + 1, -1, 0), 0)


def with_steel(section, area):
    """Section A, or one like it, with another area in its one layer."""
    return with_layer(section, 0, area=area)


def first_verdict_samples():
    """Verdict one at both ends of its interval: of both signs, one sign, or empty."""
    def both_ways(section):
        return in_each_case(section, second.turned_over(section))

    cases = [(section, 1_000_000) for section in in_each_case(SIXTEEN)]
    cases += [(section, 0) for section in both_ways(second.NO_MOMENT_SUITS)]
    cases += [(section, n) for section in both_ways(second.SECTION_A) for n in (0, least_force(section))]
    for section in (*both_ways(second.SECTION_A), *in_each_case(SIXTEEN, second.COLUMN)):
        first_beyond = 1 + min(last_up_to_10h(seen) for seen in faces_of(section))
        cases += [(section, n) for n in (first_beyond, last_of_both(section))]
    for section, n in cases:
        answer = second.check(section, Load(n, 0, 0))  # of the top, and of the bottom as the other face
        for m in (end + more for end in (answer.mrd, -answer.other_mrd, 0) for more in (-1, 0, 1)):
            yield Sample(f"N {n}, M {m}", section, Load(n, m, 0), 0)


def bending_turn_samples():
    """Verdicts one and two at the turn: MRd of the papers, 10d = u, 5.6.3(2)."""
    ends = ((-6_312_569, 257_986_051), (-7_554_140, 300_000_000), (-5_339_334, 251_755_182), (-6_387_061, 293_342_640))
    hanger_ends = ((130_314_020, 130_553_980), (149_850_024, 150_149_976),
                   (130_332_017, 130_535_983), (149_872_521, 150_127_479))
    for a, *both in zip(in_each_case(second.SECTION_A), ends, hanger_ends):
        for n, of_n in zip((0, least_force(a)), both):
            for m in (end + more for end in of_n for more in (-1, 0, 1)):
                yield Sample(f"A, N {n}, M {m}", a, Load(n, m, 0), 0)
    for section in in_each_case(*(second.SECTION_A._replace(fck=fck) for fck in (30, 50, 55, 90))):
        limit = second.depth_limit(section.fck) * 450 // 10
        for u in (limit, limit + 1, 4_499, 4_500, 4_501):
            n = ceil(second.internal_force(section, u))
            yield Sample(f"fck {section.fck} at u {u}", section, Load(n, 1, 1), 0)


def shear_turn_samples():
    """Verdict three at the turn: VRd,c of the papers, the caps on r and c, 35·q, 0."""
    caps = (600_000, 1_800_000), (750_000, 2_250_000), (510_000, 1_530_000), (637_500, 1_912_500)  # g·b·h/500
    for a, vrd, both in zip(in_each_case(second.SECTION_A), (86_851, 108_564) * 2, caps):
        for v in (vrd - 1, vrd, vrd + 1, -vrd, -vrd - 1):
            yield Sample(f"A, V {v}", a, Load(0, 0, v), 0)
        for area in (100, 300, 2_699, 2_700, 2_701):  # 35·q in both situations or in one; 50·2,700 is 300·450
            yield Sample(f"A with area {area}", with_steel(a, area), UNDER_LOAD, 0)
        for section, cap in zip((a, a._replace(fck=90)), both):
            for n in (cap - 1, cap, cap + 1):
                most = second.check(section, Load(n, 0, 0)).vrd
                for v in (most, -most - 1):
                    yield Sample(f"fck {section.fck}, N {n}, V {v}", section, Load(n, 0, v), 0)
        for n in (-1, -600_000, least_force(a)):
            yield Sample(f"A, N {n}", a, Load(n, 0, 0), 0)
        yield Sample("A with area 3000, VRd,c 0", with_steel(a, 3_000), Load(-1_000_000, 0, 0), 0)


def steel_turn_samples():
    """Verdicts four and five at the turn, equality included."""
    a = second.SECTION_A
    ratio = second.section_of(200, 600, 12, 600, [(500, 130)])     # 13·200·500 = 10,000·130
    strength = second.section_of(200, 600, 90, 520, [(400, 200)])  # 26·50·200·400 = 1,000·200·520
    for section, area in ((a, 176), (a, 204), (ratio, 130), (strength, 200), (a, 6_000)):
        for beside in (area - 1, area, area + 1):                  # 25·6,000 = 300·500
            for there in in_each_case(with_steel(section, beside)):
                yield Sample(f"fck {section.fck} with area {beside}", there, second.NO_LOAD, 0)


def field_presence_samples():
    """N, M, V, the situation and αcc absent or there, in every combination."""
    for section, n, m, v in product(in_each_case(SIXTEEN), (0, -70_000, 70_000), (0, -90_000_000, 90_000_000),
                                    (0, -50_000, 50_000)):
        yield Sample(f"loads {n} {m} {v}", section, Load(n, m, v), 0)


# --- links: request 3 of 02 ---------------------------------------------------


def last_spacing(dm):
    """'the spacing is at most 0.75·dm': the last whole millimetre."""
    return 3 * dm // 4


def least_link_area(section, spacing):
    """The least area whose ratio is at least 0.08·√fck/fyk: 25·area·fyk ≥ √(4·fck)·spacing·b."""
    root = 1 + isqrt(4 * section.fck * (spacing * section.width)**2 - 1)  # rounded up
    return -(-root // (25 * section.fyk))


def passes(holds):
    """Verdict six of links whose one condition in doubt holds or not."""
    return PASS if holds else FAIL


def link_range_samples():
    """Tests 27, 28 and 29 at both sides of their bounds."""
    for number, field, least, most in ((27, "area", 1, 5_000), (28, "spacing", 25, 1_000)):
        inside = (least, least + 1, most - 1, most)
        for value in (0, least - 1, *inside, most + 1, 2**16 + least, 2**31, U32_MAX):
            yield Sample(f"link {field} {value}", linked(second.SECTION_A, **{field: value}), second.NO_LOAD,
                         0 if value in inside else number)
    for n in (-N_MOST, -651_691, -651_690, -1, 0, 1, 2_505_000, 2_505_001, 3_441_000, 3_441_001, N_MOST):
        yield Sample(f"links under N {n}", linked(second.SECTION_A), Load(n, 0, 0), 29 if n else 0)


def presence_samples():
    """Any number but 0 says that links are present; absent ones' numbers never matter, under any N."""
    a = second.SECTION_A
    for present in (1, 2, 255, 256, 2**31, 2**32, 2**63, 2**64 - 1):
        there = a._replace(links=Links(present, 101, 200))
        yield Sample(f"present {present}", there, second.NO_LOAD, 0, PASS, 25)
        yield Sample(f"present {present}, area 0", linked(there, area=0), second.NO_LOAD, 27, NOT_REACHED, 0)
    for area, spacing in ((0, 0), (0, 200), (101, 200), (5_001, 24), (U32_MAX, U32_MAX)):
        for n, refusal in ((-651_691, 11), (-651_690, 0), (0, 0), (1, 0), (2_505_000, 0), (2_505_001, 0),
                           (3_441_000, 0), (3_441_001, 12)):
            yield Sample(f"absent links {area}/{spacing}, N {n}", a._replace(links=Links(0, area, spacing)),
                         Load(n, 0, 0), refusal, NOT_REACHED, 0)


def cotangent_samples():
    """The cases of requests 3, 8 and 10, and links that bring the cotangent to each of its tenths."""
    for a, between, v in zip(in_each_case(second.SECTION_A), (16, 17, 15, 16), (441, 507) * 2):
        for area, spacing, tenths in ((101, 200, 25), (500, 50, 10), (200, 100, between)):
            there = linked(a, area=area, spacing=spacing)
            yield Sample(f"A, links {area}/{spacing}", there, UNDER_LOAD, 0, PASS, tenths)
        yield Sample("A, links 1/1000: V, spacing and ratio fail", linked(a, area=1, spacing=1_000), Load(0, 0, v),
                     0, FAIL, 25)
        for area in range(170, 820, 10):  # 0.9·dm, b, fck and fyk of A: from 2.5 to 1.0
            yield Sample(f"A, links {area}/200", linked(a, area=area), Load(0, 0, -80_000), 0, PASS)


def tie_samples():
    """Two cotangents resist the same, or all of them."""
    for section, sixth, tenths in ((second.TIE, FAIL, 23), (second.ACCIDENTAL_TIE, PASS, 19),
                                   (second.REDUCED_TIE, FAIL, 18), (second.BOTH_TIE, PASS, 23)):
        yield Sample("a tie of links and strut", section, second.NO_LOAD, 0, sixth, tenths)
    at_1 = second.section_of(52, 50, 12, 400, [(1, 20_000)])  # dm 1: two struts, or all links, of equal newtons
    for section in in_each_case(linked(at_1, area=5_000, spacing=25), linked(at_1, area=1, spacing=1_000)):
        yield Sample("a tie", section, second.NO_LOAD, 0, FAIL, 10)


# Of each kind: fck 16 and 25 with a ratio that can be the least itself, dm of 4·k, the strut factor
# of a high class, and many layers.
LINKED_SECTIONS = (
    second.SECTION_A, SIXTEEN, SIXTEEN._replace(fck=90, fyk=463),
    second.section_of(250, 500, 25, 500, [(400, 1_500)]),
    second.section_of(250, 500, 16, 400, [(400, 1_500), (100, 500)]),
    second.section_of(2_000, 2_000, 12, 600, [(1_300, 20_000), (60, 7_000)]),
)


def spacing_turns(section, m, last):
    """The spacing at its last millimetre, with an area that suits beyond it too."""
    area = least_link_area(section, last + 1)
    for spacing in (last - 1, last, last + 1):
        yield Sample(f"M {m}, links {area}/{spacing}", linked(section, area=area, spacing=spacing),
                     Load(0, m, 0), 0, passes(spacing <= last))


def ratio_turns(section, m, last):
    """The area at the least of its ratio."""
    least = least_link_area(section, last)
    for area in (least - 1, least, least + 1):
        yield Sample(f"M {m}, links {area}/{last}", linked(section, area=area, spacing=last),
                     Load(0, m, 0), 0, passes(area >= least))


def resistance_turns(section, m, last):
    """V of both signs at the resistance, of the least links and of links that leave it to the strut."""
    for area in (least_link_area(section, last), 5_000):
        there = linked(section, area=area, spacing=last)
        most = second.check(there, Load(0, m, 0)).link_resistance
        for v in (sign * (most + more) for sign in (1, -1) for more in (-1, 0, 1)):
            yield Sample(f"M {m}, links {area}/{last}, V {v}", there, Load(0, m, v), 0, passes(abs(v) <= most))


def link_turn_samples():
    """Verdict six at the turn of spacing, of ratio and of V, the other two within, for both faces."""
    for section in in_each_case(*LINKED_SECTIONS):
        for m in (0, -1):
            last = last_spacing(second.check(section, Load(0, m, 0)).dm)
            for turns in (spacing_turns, ratio_turns, resistance_turns):
                yield from turns(section, m, last)


def exact_ratio_samples():
    """The least ratio itself passes: 0.08·√fck/fyk is 20/(100·250) for 25 and 500 and for 16 and 400."""
    for fck, fyk in ((25, 500), (16, 400)):
        for section in in_each_case(second.section_of(250, 500, fck, fyk, [(450, 1_500)])):
            for area in (19, 20, 21):
                yield Sample(f"fck {fck}, links {area}/100", linked(section, area=area, spacing=100), second.NO_LOAD,
                             0, passes(area >= 20))


# --- columns: request 11 of 02 ------------------------------------------------


def whole_block_depth(seen):
    """The first whole depth at which the block's depth L·x/80 is h."""
    return -(-800 * seen.height // second.materials_of(seen).L)


def depths_that_tell(seen):
    """Depths beyond 10h: the first two, about where the block becomes h, between, and the last two."""
    first, last, whole = second.greatest_depth(seen) + 1, second.last_depth(seen), whole_block_depth(seen)
    return first, first + 1, whole - 1, whole, whole + 1, (whole + last) // 2, last - 1, last


def column_depth_samples():
    """N at the forces of whole depths beyond 10h of either face; where they fall again the answer is another depth."""
    for section in in_each_case(second.SECTION_A, second.HUMP, second.COLUMN, second.MIXED, second.SMALL, HIGH):
        last = last_of_both(section)
        for m in (0, -1):
            seen = second.as_compressed(section, m)
            for u, more in product(depths_that_tell(seen), (-1, 0, 1)):
                n = second.force_beyond(seen, u) + more
                yield Sample(f"force at {u} + {more}, M {m}", section, Load(n, m, 1), 0 if n <= last else 12)


def column_grade_samples():
    """Every αcc with every class in both situations, under the last N that both faces reach; 12 begins above it."""
    for alpha_cc, situation, fck in product(second.ALPHAS, second.FACTORS, second.CLASSES):
        section = THREE._replace(fck=fck, situation=situation, alpha_cc=alpha_cc)
        last, m = last_of_both(section), 1 if alpha_cc % 2 else -1
        yield Sample(f"fck {fck}, αcc {alpha_cc}, the last N", section, Load(last, m, 0), 0)
        if alpha_cc in (85, 100):
            yield Sample(f"fck {fck}, αcc {alpha_cc}, the last N + 1", section, Load(last + 1, m, 0), 12)


# --- the halving rule: request 12 of 02 ---------------------------------------

# The lowest and the highest, and those whose 10h, the candidates of the rule, are the last below a power of two and the
# first above it: 512, 1,024, 2,048, 4,096, 8,192 and 16,384.
HALVED_HEIGHTS = (50, 51, 52, 102, 103, 204, 205, 409, 410, 819, 820, 1_638, 1_639, 2_000)


def depths_of_the_rule(height):
    """Depths that the rule ends at, by their names: each trial dropped or each kept, and so after the first mean."""
    first, last = 5 * height + 1, 10 * height  # the mean of 1 and 10h, rounded up
    return {"1": 1, "2": 2, "the first mean - 1": first - 1, "the first mean": first, "the first mean + 1": first + 1,
            "10h - 1": last - 1, "10h": last}


def axial_forces_about(section, u):
    """N a newton below the first of depth u, the first, a newton above it, and a newton below the first of u + 1."""
    first, then = (ceil(second.force_at(section, depth)) for depth in (u, u + 1))
    return tuple(dict.fromkeys((first - 1, first, first + 1, then - 1)))


def halving_samples():
    """N at the forces of these depths: whole ones, so that a trial has N itself, and fractions, which pass 10h over."""
    for height in HALVED_HEIGHTS:
        whole = second.section_of(300, height, 30, 500, [(1, 100)])
        fraction = second.section_of(300, height, 35, 500, [(9 * height // 10, 777), (7, 35)])
        for section in (whole, fraction):
            least = least_force(section)
            for u in depths_of_the_rule(height).values():
                for n in axial_forces_about(section, u):
                    yield Sample(f"h {height}, N {n} about depth {u}", section, Load(n, 0, 0), 0 if n >= least else 11)


# --- the sequence of layers on disk: request 6 of 02 ---------------------------


class Typed(NamedTuple):
    """A section whose layers stand in some sequence, and whether the reader takes it."""

    label: str
    section: Section
    taken: bool


STEPS = second.section_of(400, 700, 40, 500, [(50 + 40 * place, 300) for place in range(second.PLACES)])

# As the writer has them: depths that rise while areas fall, equal depths, a layer twice, and both of these.
BAGS = (
    ((50, 900), (350, 600), (640, 300)),
    ((50, 600), (350, 599), (350, 600)),
    ((50, 600), (350, 600), (350, 600)),
    ((50, 300), (50, 301), (350, 600), (350, 600)),
)


def beside_neighbour(section):
    """A layer a millimetre less deep than the one before it, as deep and deeper, each with a unit less, as much and a
    unit more of area: the second layer, one in the middle, and the last."""
    for place in sorted({1, section.count // 2, section.count - 1}):
        before = section.layers[place - 1]
        for deeper, larger in product((-1, 0, 1), repeat=2):
            moved = with_layer(section, place, depth=before.depth + deeper, area=before.area + larger)
            yield Typed(f"layer {place} of {section.count} by {deeper} mm and {larger} mm² from the one before", moved,
                        deeper > 0 or (deeper == 0 and larger >= 0))


def sixteen_typed():
    """Sixteen layers moved about, and sixteen equal ones."""
    def typed(label, layers, taken=False):
        return Typed(f"sixteen layers, {label}", SIXTEEN._replace(layers=tuple(layers)), taken)

    first, *between, last = SIXTEEN.layers
    yield typed("as they are", SIXTEEN.layers, True)
    yield typed("all equal", [first] * second.PLACES, True)
    yield typed("back to front", SIXTEEN.layers[::-1])
    yield typed("the first and the last swapped", (last, *between, first))
    yield typed("the first one last", (*between, last, first))
    yield typed("the last one first", (last, first, *between))
    for place in range(second.PLACES - 1):
        yield typed(f"{place} and {place + 1} swapped", second.swapped_at(SIXTEEN, place).layers)


def typed_sections():
    """Neighbours at both sides of 31, also with links, situation and αcc; a few layers in each sequence; sixteen."""
    for count in (2, 3, 5, second.PLACES):
        few = STEPS._replace(count=count)
        yield from beside_neighbour(few)
        yield from beside_neighbour(linked(few)._replace(situation=ACCIDENTAL, alpha_cc=85))
    for bag in BAGS:
        for layers in dict.fromkeys(permutations(bag)):
            yield Typed(f"layers {layers}", second.section_of(400, 700, 40, 500, layers), layers == bag)
    yield from sixteen_typed()


def sequence_samples():
    """'calls by value take any sequence as before', and what is written has but one."""
    for typed in typed_sections():
        yield Sample(typed.label, typed.section, UNDER_LOAD, 0)


def all_samples():
    """Every fixed sample of this file."""
    for group in (field_samples, class_samples, count_samples, layer_samples, load_samples,
                  reference_samples, end_samples, order_samples, first_verdict_samples,
                  bending_turn_samples, shear_turn_samples, steel_turn_samples,
                  size_factor_samples, grade_samples, field_presence_samples, link_range_samples,
                  presence_samples, cotangent_samples, tie_samples, link_turn_samples, exact_ratio_samples,
                  column_depth_samples, column_grade_samples, halving_samples, sequence_samples):
        yield from group()
