"""What the compared records met: refusals, verdicts, and the turns of 01 and 02.

A comparison that never met a refusal or a verdict has shown nothing about it,
so each one that the papers make reachable has to be met at least once, verdicts
and turns in each situation of request 8 of 02, both with αcc 100 and below it
(request 10), and every αcc with every class in both situations, with depths up
to 10h and beyond (request 11). Every number of trials that Find a depth can
answer has to be met too (request 12), and layers in and out of the sequence of
records, by each kind of step from a layer to the next (request 6). Of layers that
are tried before they are placed (request 9) layer_trials.py says what has to be met.
"""

from collections import Counter, defaultdict
from itertools import groupby, product
from math import ceil
from typing import NamedTuple

import second
from samples import HALVED_HEIGHTS, depths_of_the_rule, faces_of, last_spacing, last_up_to_10h, least_link_area

LIST_REFUSALS = tuple(dict.fromkeys(
    second.SEQUENCES["Read a record"] + second.SEQUENCES["Check"] + second.SEQUENCES["List program"]))
LIBRARY_REFUSALS = tuple(dict.fromkeys(
    number for call in ("Find a depth", "Moment at a depth", "Write a record", "Try a layer")
    for number in second.SEQUENCES[call] if number not in LIST_REFUSALS))

# 01 leaves verdicts one and five never "not reached" in an accepted record. Verdict six is so without
# links; links ask for N 0, under which an accepted section has a tension layer.
REACHABLE = ((0, 1), (0, 1, 2), (0, 1, 2), (0, 1, 2), (0, 1), (0, 1, 2))
assert len(REACHABLE) == second.VERDICTS

GRADES = tuple(product(second.ALPHAS, second.CLASSES, second.FACTORS))


def case_named(situation, reduced):
    """What the verdicts and turns of these records are counted under."""
    return f"situation {situation}, αcc " + ("below 100" if reduced else "100")


CASES = tuple(case_named(situation, reduced) for reduced, situation in product((False, True), second.FACTORS))


def case_of(section):
    """The case of a section that passed tests 32 and 34."""
    return case_named(section.situation, section.alpha_cc < second.UNREDUCED)


def beside(name, value, bound):
    """The value a unit below the bound, at it, and a unit above it."""
    yield f"{name} - 1", value == bound - 1
    yield name, value == bound
    yield f"{name} + 1", value == bound + 1


def first_verdict_turns(load, report):
    """Both ends of verdict one, and what its interval holds."""
    top, bottom = (report.mrd, report.other_mrd) if load.m >= 0 else (report.other_mrd, report.mrd)
    yield from beside("M is MRd of the top", load.m, top)
    yield from beside("M is minus MRd of the bottom", load.m, -bottom)
    yield "M < 0 is MRd of the top", load.m == top < 0
    yield "M > 0 is minus MRd of the bottom", load.m == -bottom > 0
    yield "M of both signs passes", -bottom < 0 < top
    yield "only M > 0 passes", 0 < -bottom <= top
    yield "only M < 0 passes", -bottom <= top < 0
    yield "no M passes", top < -bottom
    yield "M fails by the face that it compresses", abs(load.m) > report.mrd
    yield "M fails by the other face alone", abs(load.m) <= report.mrd and report.verdicts[0] == second.FAIL


# --- depths beyond 10h: request 11 of 02 ---------------------------------------


class Face(NamedTuple):
    """What Check answers of a face under N."""

    seen: second.Section
    n: int
    u: int
    mrd: int


def faces_beyond(section, load, report):
    """The face that M compresses and the other one, None in place of one whose depth is up to 10h."""
    faces = (Face(second.as_compressed(section, load.m), load.n, report.u, report.mrd),
             Face(second.as_other_face(section, load.m), load.n, report.other_u, report.other_mrd))
    return [face if face.u > second.greatest_depth(section) else None for face in faces]


def halved_depth(seen, n):
    """What halving would find beyond 10h, as if the force rose with every depth."""
    return 1 + second.greatest(lambda u: second.force_beyond(seen, u) < n,
                               second.greatest_depth(seen), second.last_depth(seen) + 1)


def unrounded_force(seen, u):
    """The sum of the parts' forces beyond 10h, nothing rounded."""
    mat, height = second.materials_of(seen), seen.height
    concrete = second.Fraction(mat.f * seen.width * second.block_depth_beyond(mat, height, u), 80_000)
    return concrete + sum(layer.area * second.Fraction(*second.stress_beyond(mat, height, layer.depth, u))
                          for layer in second.counted(seen))


def moment_of_rounded_forces(seen, u):
    """The moment, were it taken from the rounded forces."""
    mat, height = second.materials_of(seen), seen.height
    steel = sum(second.layer_force_beyond(mat, height, layer, u) * (height - 2 * layer.depth) // 2
                for layer in second.counted(seen))
    arm = 800 * height - second.block_depth_beyond(mat, height, u)
    return second.concrete_force_beyond(mat, seen, u) * arm // 1_600 + steel


def depth_turns(face):
    """Where N and u of a face beyond 10h stand."""
    seen, n, u, _ = face
    first, last = second.greatest_depth(seen) + 1, second.last_depth(seen)
    before, there = second.force_at(seen, u - 1), second.force_at(seen, u)
    yield "u is 10h + 1", u == first
    yield "u is 30h", u == last
    yield "N is a newton below the force at u", n == there - 1
    yield "N is the force at u", n == there
    yield "N is a newton above the force before u", u > first and n == before + 1
    yield "N is above the force at 30h", n > second.force_at(seen, last)
    yield "a greater depth reaches N too", u < last and n <= second.force_at(seen, last)
    yield "halving would find another depth", halved_depth(seen, n) != u
    yield "parts not rounded would reach N before", u > first and unrounded_force(seen, u - 1) >= n


def part_turns(face):
    """What concrete and layers of a face beyond 10h do."""
    seen, _, u, mrd = face
    mat, height, layers = second.materials_of(seen), seen.height, second.counted(seen)
    held = [second.stress_beyond(mat, height, layer.depth, u) == (mat.s, 100) for layer in layers]
    rise = [second.never_falls(mat, height, layer) for layer in layers]
    yield "the block is less than h", mat.L * u < 800 * height
    yield "L·x/80 is more than h", mat.L * u > 800 * height
    yield "a layer is held at s/100", any(held)
    yield "a layer that rises is free", any(rises and not at_limit for rises, at_limit in zip(rise, held))
    yield "a layer that falls is free", any(not rises and not at_limit for rises, at_limit in zip(rise, held))
    yield "layers rise and layers fall", len(set(rise)) == 2
    yield "a layer where the strain line turns", any(mat.E * layer.depth == (mat.E - mat.D) * height for layer in layers)
    yield "sixteen layers", len(layers) == second.PLACES
    yield "a moment of rounded forces would be another", moment_of_rounded_forces(seen, u) != mrd
    yield "MRd is negative", mrd < 0
    yield "MRd is positive", mrd > 0
    yield "h is 50", height == 50
    yield "h is 2,000", height == 2_000


def verdict_turns_beyond(load, report, compressed, other):
    """Which face is beyond 10h, its end of verdict one, and what the other verdicts then rest on."""
    top, bottom = (compressed, other) if load.m >= 0 else (other, compressed)
    both, other_alone = compressed and other, other and not compressed
    for name, met in beside("M is MRd of the top, beyond 10h", load.m, top.mrd if top else 0):
        yield name, bool(top and met)
    for name, met in beside("M is minus MRd of the bottom, beyond 10h", load.m, -bottom.mrd if bottom else 0):
        yield name, bool(bottom and met)
    yield "only the face that M compresses is beyond 10h", bool(compressed and not other)
    yield "only the other face is beyond 10h", bool(other_alone)
    yield "only the other face is beyond 10h, and layers are in tension", bool(other_alone and report.area)
    yield "both faces are beyond 10h", bool(both)
    yield "both faces are beyond 10h at different depths", bool(both and compressed.u != other.u)
    yield "both faces are beyond 10h, v1 passes", bool(both and report.verdicts[0] == second.PASS)
    yield "both faces are beyond 10h, v1 fails", bool(both and report.verdicts[0] == second.FAIL)
    yield "M < 0 compresses a face beyond 10h", bool(compressed and load.m < 0)
    yield "V is not 0, the face that M compresses beyond 10h", bool(compressed and load.v)


def beyond_turns(section, load, report):
    """All that an accepted record meets beyond 10h; the names of a record without such a face count nothing."""
    compressed, other = faces_beyond(section, load, report)
    yield from verdict_turns_beyond(load, report, compressed, other)
    for name, face in (("beyond 10h", compressed), ("beyond 10h, the other face", other)):
        for fck in second.CLASSES:
            yield f"{name}: fck {fck}", bool(face and section.fck == fck)
        if face:
            yield from ((f"{name}: {turn}", met) for turn, met in (*depth_turns(face), *part_turns(face)))


# --- trials of the halving rule: request 12 of 02 ------------------------------


TRIALS = range(8, second.MOST_TRIALS + 1)  # the 500 candidates of h 50, halved and rounded down, are one after 8 trials


def numbers_of_trials(height):
    """Where each trial is dropped and where each is kept: the halves of 10h rounded down, and rounded up, to one."""
    most = (10 * height).bit_length()  # 10h is no power of two
    return most - 1, most


def trial_turns(section, n, answer):
    """What Find a depth answers of trials, and the depths that tell: (what it does, whether it did here)."""
    refusal, u, trials = answer
    within = refusal == 0 and u <= second.greatest_depth(section)
    for number in TRIALS:
        yield f"takes {number} trials", within and trials == number
    yield "takes 0 trials: a depth beyond 10h", refusal == trials == 0 and not within
    for number in second.SEQUENCES["Find a depth"]:
        yield f"takes 0 trials: refusal {number}", refusal == number and trials == 0
    for height in HALVED_HEIGHTS:
        for number in numbers_of_trials(height):
            yield f"takes {number} trials of {10 * height:,} candidates", (
                within and section.height == height and trials == number)
    for name, depth in depths_of_the_rule(section.height).items():
        there = within and u == depth
        yield f"ends at {name}, N the force there", there and n == second.internal_force(section, u)
        if name != "10h":  # there N is the force itself, or u is less
            yield f"ends at {name}, N at most a newton below the next force", (
                there and n + 1 >= second.internal_force(section, u + 1))


def bending_turns(seen, load, report):
    """What the two depths and resistances are, and where verdict two turns."""
    limit = second.depth_limit(seen.fck) * report.dm
    yield "MRd is negative", report.mrd < 0
    yield "MRd of the other face is negative", report.other_mrd < 0
    yield "a layer at 10d = u", any(10 * layer.depth == report.u
                                    for layer in second.counted(seen))
    yield "u the last or first beyond 5.6.3(2)", report.dm > 0 and abs(10 * report.u - limit) < 10
    yield "turned over", load.m < 0
    yield "u is 1", report.u == 1
    yield "u is 10h", report.u == second.greatest_depth(seen)
    yield "u of the other face is 1", report.other_u == 1
    yield "u of the other face is 10h", report.other_u == second.greatest_depth(seen)


def beside_last(name, faces, n):
    """N a newton below the last that all these faces reach, at it, and a newton above it."""
    def is_last(force):
        reached, more = (not any(second.above_range(face, number) for face in faces) for number in (force, force + 1))
        return reached and not more

    yield f"{name} - 1", is_last(n + 1)
    yield name, is_last(n)
    yield f"{name} + 1", is_last(n - 1)


def axial_turns(section, load):
    """Where 11 and 12 turn and depths beyond 10h begin, for a record that no earlier test refuses."""
    top, bottom = faces_of(section)
    yield from beside("N is the least at depth 1", load.n, ceil(second.force_at_end(top, 1)))  # of both faces
    yield from beside("N is the last at 10h of the top", load.n, last_up_to_10h(top))
    yield from beside("N is the last at 10h of the bottom", load.n, last_up_to_10h(bottom))
    yield "N is the last at 10h, and rounded parts would not reach it there", any(
        load.n == last_up_to_10h(seen) > second.force_beyond(seen, second.greatest_depth(seen))
        for seen in (top, bottom))
    yield from beside_last("N is the last that the top reaches", [top], load.n)
    yield from beside_last("N is the last that the bottom reaches", [bottom], load.n)
    above_top, above_bottom = (second.above_range(face, load.n) for face in (top, bottom))
    for sign, compressed in (("M < 0", load.m < 0), ("M >= 0", load.m >= 0)):
        for name, met in beside_last("N is the last that both faces reach", [top, bottom], load.n):
            yield f"{name}, {sign}", compressed and met
        yield f"12 of the top alone, {sign}", compressed and above_top and not above_bottom
        yield f"12 of the bottom alone, {sign}", compressed and above_bottom and not above_top
    yield "12 of both faces", above_top and above_bottom


def shear_turns(seen, load, report):
    """The branches of 6.2.2, for a record with tension layers."""
    axial = second.axial_force_for_shear(seen, load.n)
    least = second.least_stress(seen, report.dm)
    of_12, of_15 = (second.reinforced_stress(seen._replace(situation=situation), report.area, report.dm)
                    for situation in (second.PERSISTENT, second.ACCIDENTAL))
    by_steel = of_12 if seen.situation == second.PERSISTENT else of_15
    yield "|V| is VRd,c", abs(load.v) == report.vrd
    yield "|V| is VRd,c + 1", abs(load.v) == report.vrd + 1
    yield "VRd,c held at 0", report.vrd == 0
    yield "dm below 200", report.dm < 200
    yield "r without the area (50·As > b·dm)", 50 * report.area > seen.width * report.dm
    yield "12 or 15·K·r/100 decides", by_steel > least
    yield "35·q decides", by_steel <= least
    yield "35·q decides over 12·K·r/100 and not over 15·K·r/100", of_12 <= least < of_15
    yield "c is the cap", axial < load.n
    yield "c is the cap, fck above 50", axial < load.n and seen.fck > 50
    yield "c is negative", axial < 0


def steel_turns(seen, load, report):
    """The two inequalities of verdict four."""
    tensile = second.materials_of(seen).T
    by_strength = (26 * tensile * seen.width * report.dm
                   <= 1_000 * report.area * seen.fyk)
    by_ratio = 13 * seen.width * report.dm <= 10_000 * report.area
    yield "9.2.1.1(1): only the strength fails", by_ratio and not by_strength
    yield "9.2.1.1(1): only 0.0013 fails", by_strength and not by_ratio


def link_bounds(seen, load, report):
    """The three conditions of verdict six at their bounds, for a record with links."""
    links, most = seen.links, report.link_resistance
    yield from beside("|V| is the link resistance", abs(load.v), most)
    yield "V < 0 is minus the link resistance", load.v == -most < 0
    yield "V < 0 is minus the link resistance - 1", load.v == -most - 1
    yield from beside("spacing is the last within 0.75·dm", links.spacing, last_spacing(report.dm))
    yield "spacing is 0.75·dm itself", 4 * links.spacing == 3 * report.dm
    yield from beside("link area is the least of its ratio", links.area, least_link_area(seen, links.spacing))
    yield "the link ratio is the least itself", (
        625 * (links.area * seen.fyk)**2 == 4 * seen.fck * (links.spacing * seen.width)**2)


def link_reasons(seen, load, report):
    """Why verdict six passes or fails, and verdict three beside it."""
    reasons = {"|V|": abs(load.v) > report.link_resistance, "spacing": not second.spacing_suits(seen, report.dm),
               "ratio": not second.link_ratio_suits(seen)}
    for name, fails in reasons.items():
        alone = fails and sum(reasons.values()) == 1
        yield f"v6 fails by {name} alone", alone and report.verdicts[5] == second.FAIL
    yield "v6 fails by all three", all(reasons.values()) and report.verdicts[5] == second.FAIL
    yield "v6 fails by |V| alone, by a newton", (
        report.verdicts[5] == second.FAIL and list(reasons.values()) == [True, False, False]
        and abs(load.v) == report.link_resistance + 1)
    yield "v6 passes at |V| of the resistance", (
        report.verdicts[5] == second.PASS and abs(load.v) == report.link_resistance)
    yield "v6 passes and v3 fails", report.verdicts[5] == second.PASS and report.verdicts[2] == second.FAIL
    yield "v6 fails and v3 passes", report.verdicts[5] == second.FAIL and report.verdicts[2] == second.PASS


def cotangent_turns(seen, load, report):
    """Which cotangent answers, and which of the two resistances it is."""
    def lesser(tenths):
        return second.lesser_resistance(seen, report.dm, tenths)

    steel, strut = (resistance(seen, report.dm, report.cotangent)
                    for resistance in (second.steel_resistance, second.strut_resistance))
    as_much = [tenths for tenths in second.COTANGENTS if lesser(tenths) == report.link_resistance]
    yield "the links resist less than the strut", steel < strut
    yield "the strut resists less than the links", strut < steel
    yield "two cotangents tie", len(as_much) == 2
    yield "all cotangents tie", len(as_much) == len(second.COTANGENTS)
    yield "the link resistance is 0", report.link_resistance == 0
    yield "links, fck above 50", seen.fck > 50
    yield "links, turned over", load.m < 0
    for tenths in second.COTANGENTS:
        yield f"cotangent {tenths}", report.cotangent == tenths


def class_turns(seen):
    """The class, whose factors of the stress block enter every depth and moment."""
    for fck in second.CLASSES:
        yield f"fck {fck}", seen.fck == fck


def turns(section, load, report):
    """The names of all turns that an accepted record meets."""
    seen = second.as_compressed(section, load.m)
    area = sum(layer.area for layer in second.counted(seen))
    found = [*class_turns(seen), *first_verdict_turns(load, report), *bending_turns(seen, load, report),
             *beyond_turns(section, load, report),
             ("25 times all areas is b·h", 25 * area == seen.width * seen.height)]
    if report.area:
        found += [*shear_turns(seen, load, report), *steel_turns(seen, load, report)]
    if second.has_links(seen):
        found += [*link_bounds(seen, load, report), *link_reasons(seen, load, report),
                  *cotangent_turns(seen, load, report)]
    return found


def alpha_turns(section, load, report):
    """What αcc below 100 alters beside 100, and where one rounding down is not two; never true of αcc 100."""
    whole = section._replace(alpha_cc=second.UNREDUCED)
    other = report if whole == section else second.check(whole, load)
    strengths, others = second.materials_of(section), second.materials_of(whole)
    for place in (1, 2, 3, 6):
        yield f"αcc below 100 alters v{place}", (
            other.refusal == 0 and report.verdicts[place - 1] != other.verdicts[place - 1])
    for name in ("f", "g"):
        one, full = getattr(strengths, name), getattr(others, name)
        yield f"αcc times {name} rounded down twice is another", one != section.alpha_cc * full // 100


def presence_turns(subject):
    """'a present 0 is read too', a present 1 of the situation, 100 of αcc: what a record has without need."""
    fields = second.fields_read(subject, second.bits_that_stand(subject))
    for field in second.OPTIONAL_FIELDS:
        yield f"a present {field.missing} is read: {field.name}", (
            fields.get(field.bit) == second.signed_bytes(field.missing))


# --- the sequence of layers on disk: request 6 of 02 ----------------------------


def runs_of_equals(values):
    """How many there are where equal ones that follow each other are one."""
    return sum(1 for _ in groupby(values))


def sequence_kinds(layers):
    """What layers are beside the writer's sequence: (what, whether these are so)."""
    pairs, depths = list(zip(layers, layers[1:])), [layer.depth for layer in layers]
    ordered = not second.out_of_sequence(layers)
    depths_fall = any(after.depth < before.depth for before, after in pairs)
    areas_fall = any(after.depth == before.depth and after.area < before.area for before, after in pairs)
    for number in (2, 3, second.PLACES):
        yield f"{number} in sequence", ordered and len(layers) == number
        yield f"{number} out of sequence", not ordered and len(layers) == number
    yield "in sequence, equal depths", ordered and any(
        before.depth == after.depth and before.area < after.area for before, after in pairs)
    yield "in sequence, equal layers", ordered and any(before == after for before, after in pairs)
    yield "in sequence, a deeper one of lesser area", ordered and any(
        after.area < before.area for before, after in pairs)
    yield "out of sequence by depths alone", depths_fall and not areas_fall
    yield "out of sequence by areas alone", areas_fall and not depths_fall
    yield "out of sequence by both", depths_fall and areas_fall
    yield "out of sequence, and in sequence back to front", not ordered and not second.out_of_sequence(layers[::-1])
    yield "out of sequence, equal layers apart", runs_of_equals(layers) > len(set(layers))
    yield "out of sequence, equal depths apart", runs_of_equals(depths) > len(set(depths))


UNITS = {-1: "a unit less", 0: "equal", 1: "a unit more"}
NEIGHBOURS = ("the only two", "the first two", "two between", "the last two")


def neighbours_named(place, last):
    """Which two of a record's layers follow each other at this place; the last two do at the last one."""
    return NEIGHBOURS[0 if last == 0 else 1 if place == 0 else 3 if place == last else 2]


def neighbour_turns(layers):
    """Two neighbours at most a unit apart: any two of layers in sequence, else the only two that are out of it."""
    pairs = list(zip(layers, layers[1:]))
    at_fault = [pair for pair in pairs if second.comes_too_late(*pair)]
    found = {(neighbours_named(place, len(pairs) - 1), after.depth - before.depth, after.area - before.area)
             for place, (before, after) in enumerate(pairs) if at_fault in ([], [(before, after)])}
    for where, deeper, larger in product(NEIGHBOURS, UNITS, UNITS):
        yield f"{where}, depth {UNITS[deeper]}, area {UNITS[larger]}", (where, deeper, larger) in found


def stored_turns(fields, section):
    """What a record, taken or refused by 31, has of layers, and with which other fields."""
    layers, bits = second.counted(section), [bit for bit in second.LAYER_BITS if bit in fields]
    ordered = not second.out_of_sequence(layers)
    for name, met in (*sequence_kinds(layers), *neighbour_turns(layers)):
        yield f"Read, layers: {name}", met
    for name, there in (
            ("gaps between layer bits", bits[-1] - bits[0] >= len(bits)), ("links", second.LINK_BIT in fields),
            ("a situation", second.SITUATION_BIT in fields), ("αcc", second.ALPHA_CC_BIT in fields)):
        yield f"Read, two or more layers in sequence with {name}", ordered and len(layers) > 1 and there
        yield f"Read, 31 with {name}", not ordered and there


def order_turns(section, load, refusal):
    """'31 ... after 7': with which tests it fails together; 5 is of no layers."""
    failing = [number for number, fails in second.tests_of_record(section, load) if fails]
    for number in second.SECTION_TESTS:
        if number != 5:
            yield f"Read, {number} before 31", refusal == number and second.SEQUENCE_TEST in failing
    for number in (*second.LOAD_TESTS, *second.LINK_TESTS):
        yield f"Read, 31 before {number}", refusal == second.SEQUENCE_TEST and number in failing


class Coverage:
    """Counts over every answer that was compared; verdicts and turns of each case."""

    def __init__(self):
        self.refusals = Counter()
        self.grades = Counter()
        self.grades_beyond = Counter()  # with a face beyond 10h
        self.verdicts = {case: [Counter() for _ in REACHABLE] for case in CASES}
        self.turns = {case: Counter() for case in CASES}
        self.calls = Counter()
        self.tried = defaultdict(Counter)  # by groups, of layers tried before they are placed

    def note(self, report, subject):
        """Count a list line of these bytes."""
        self.refusals[report.refusal] += 1
        if report.refusal == 0:
            section = second.read_record(subject).section
            grade = section.alpha_cc, section.fck, section.situation
            self.grades[grade] += 1
            self.grades_beyond[grade] += max(report.u, report.other_u) > second.greatest_depth(section)
            for counter, value in zip(self.verdicts[case_of(section)], report.verdicts):
                counter[value] += 1
            for name, met in presence_turns(subject):
                self.note_call(name, met)
        if report.refusal in (0, *second.SECTION_TESTS, second.SEQUENCE_TEST):
            self.note_sequence(report.refusal, subject)

    def note_sequence(self, refusal, subject):
        """Count what these bytes have of the sequence of layers, and 31 beside other tests."""
        fields = second.fields_read(subject, second.bits_that_stand(subject))
        section, load = second.meaning(fields)
        stored = stored_turns(fields, section) if refusal in (0, second.SEQUENCE_TEST) else ()
        for name, met in (*stored, *order_turns(section, load, refusal)):
            self.note_call(name, met)

    def note_turns(self, section, load, report):
        """Count where an accepted sample stands, and what its αcc alters."""
        self.note_case(section, turns(section, load, report))
        for name, met in alpha_turns(section, load, report):
            self.note_call(name, met)

    def note_call(self, name, met):
        """Count what reading a record, its layers, an αcc or one call of the library met, in whichever case."""
        self.calls[name] += met

    def note_tried(self, group, name, met):
        """Count what trying a layer met (02, request 9), one line of the table for each group."""
        self.tried[group][name] += met

    def note_axial_turns(self, section, load):
        """Count where N of a sample stands that is accepted, 11 or 12."""
        self.note_case(section, axial_turns(section, load))

    def note_case(self, section, found):
        """Count turns under the case of their section."""
        counter = self.turns[case_of(section)]
        for name, met in found:
            counter[name] += met

    def turn_names(self):
        """Every turn that a record of any case could have met."""
        return tuple(dict.fromkeys(name for counter in self.turns.values() for name in counter))

    def never_met(self, refusals):
        """What had to be met and was not."""
        missing = [f"refusal {number}" for number in refusals if not self.refusals[number]]
        for counter, where in ((self.grades, ""), (self.grades_beyond, ", a face beyond 10h")):
            missing += [f"αcc {alpha_cc}, fck {fck}, situation {situation}{where}"
                        for alpha_cc, fck, situation in GRADES if not counter[alpha_cc, fck, situation]]
        for case in CASES:
            missing += [f"verdict {place} of {value}, {case}"
                        for place, values in enumerate(REACHABLE, 1) for value in values
                        if not self.verdicts[case][place - 1][value]]
            missing += [f"{name}, {case}" for name in self.turn_names() if not self.turns[case][name]]
        missing += [f"Try a layer, {group}: {name}" for group, counter in self.tried.items()
                    for name, times in counter.items() if not times]
        return missing + [name for name, times in self.calls.items() if not times]

    def table(self):
        """The counts as lines of text."""
        met = (f"{number}: {times}" for number, times in sorted(self.refusals.items()) if times)
        yield "refusal (0 is none): " + ", ".join(met)
        together, beyond = (sum(counter[grade] > 0 for grade in GRADES) for counter in (self.grades, self.grades_beyond))
        yield f"αcc with class and situation: {together} of {len(GRADES)} accepted, {beyond} with a face beyond 10h"
        yield f"accepted with a face beyond 10h: {sum(self.grades_beyond.values())} of {sum(self.grades.values())}"
        of_each = ((alpha_cc, sum(times for grade, times in self.grades.items() if grade[0] == alpha_cc))
                   for alpha_cc in second.ALPHAS)
        yield "αcc of those accepted: " + ", ".join(f"{alpha_cc}: {times}" for alpha_cc, times in of_each)
        for case, verdicts in self.verdicts.items():
            accepted = sum(verdicts[0].values())
            yield f"{case + f',{accepted:6} accepted':44}pass      fail  not reached"
            for place, counter in enumerate(verdicts, 1):
                yield f"  v{place}{counter[0]:44}{counter[1]:10}{counter[2]:13}"
        yield "where the boundary and random records stand, N first, then all else of those accepted, counted in"
        yield "  " + "; ".join(self.turns)
        for name in self.turn_names():
            yield f"  {name}: " + ", ".join(str(counter[name]) for counter in self.turns.values())
        yield "values that could be missing and are there, layers, what αcc alters, then calls of the library"
        for name, times in self.calls.items():
            yield f"  {name}: {times}"
        if self.tried:
            yield "layers tried before they are placed"
        for group, counter in self.tried.items():
            yield f"  {group}: " + ", ".join(f"{name}: {times}" for name, times in counter.items())
