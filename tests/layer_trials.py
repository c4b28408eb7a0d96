"""Layers tried before they are placed: request 9 of 02.

The library's answer stands beside that of second.py, and beside what the library's
own Check gives for a copy that is altered here, in its sixteen places. The trials
are fixed ones at every place and bound, ones whose copy is a sample of the other
comparisons, random ones, and pairs a unit apart between which a verdict turns, found
by search with second.py.
"""

from itertools import product
from typing import NamedTuple, Optional

import second
from met import CASES, case_of
from samples import (COLUMNS, FAILINGS, SIXTEEN, THREE, U32_MAX, UNDER_LOAD, faces_of, in_each_case, last_of_both,
                     last_up_to_10h, least_force, linked, with_layer)
from sampling import any_layer, beside, edged, held
from second import FAIL, PASS, PLACES, PLACE_TEST, Layer, Load, Section

SEQUENCE = second.SEQUENCES["Check"]
SIZE_MOST = 2**64 - 1  # the greatest place and number of layers that the library can be handed
TURNS_SOUGHT = 60      # samples in which a verdict is sought that turns
TRIED = Layer(333, 777)
AT_FAULT = Layer(0, 0)  # by 6, and by 7
# Of so little steel that its verdicts are those of the layer that is tried; and one so low that each depth can be tried.
BASE = second.section_of(300, 500, 30, 500, [(450, 50)], second.links_of(101, 200))
LOW_BEAM = second.section_of(200, 120, 30, 500, [(20, 200), (100, 400)], second.links_of(50, 60))


class LayerTrial(NamedTuple):
    """A layer tried at a place of a section under a load, and the refusal that the papers state, or None."""

    label: str
    section: Section  # the one in hand
    load: Load
    place: int
    layer: Layer
    refusal: Optional[int] = None


def first_of(*numbers):
    """The one of these tests of Check that comes first."""
    return min(numbers, key=SEQUENCE.index)


# --- fixed trials -------------------------------------------------------------

# Numbers of layers by their names: none, about 16, two whose low 32 bits are those of 0 and 1, and the greatest.
COUNTS = {"0": 0, "1": 1, "15": 15, "16": 16, "17": 17, "2^32": 2**32, "2^32 + 1": 2**32 + 1, "2^63": 2**63,
          "2^64 - 1": SIZE_MOST}


def stated_refusal(count, place):
    """The refusal of a good layer tried in a good section of so many layers."""
    if place > count:
        return PLACE_TEST
    return 5 if max(count, place + 1) > PLACES else 0


def place_trials():
    """Every place of 0 to 16 layers, the one that adds, and the next one."""
    for count in range(PLACES + 1):
        for place in range(count + 2):
            section = in_each_case(SIXTEEN)[(count + place) % len(CASES)]
            yield LayerTrial(f"place {place} of {count} layers", section._replace(count=count), UNDER_LOAD, place, TRIED,
                             stated_refusal(count, place))


def count_trials():
    """These numbers of layers, each with these numbers as places and with those beside its own; a layer at fault too."""
    for count in COUNTS.values():
        section, places = SIXTEEN._replace(count=count), {*COUNTS.values(), count - 1, count, count + 1}
        for place in sorted(place for place in places if 0 <= place <= SIZE_MOST):
            label, stated = f"place {place} of {count} layers", stated_refusal(count, place)
            yield LayerTrial(label, section, UNDER_LOAD, place, TRIED, stated)
            yield LayerTrial(f"{label}, at fault", section, UNDER_LOAD, place, AT_FAULT, stated or 6)


def first_trials():
    """33 together with each test of Check, and with a layer at fault."""
    for number in SEQUENCE:
        section, load = FAILINGS[number](SIXTEEN, UNDER_LOAD)
        for place in (section.count + 1, 2**32, SIZE_MOST):
            for layer in (TRIED, AT_FAULT):
                yield LayerTrial(f"33 before {number}", section, load, place, layer, PLACE_TEST)


# Layers at fault in SIXTEEN, each by one test.
FAULTS = ((6, Layer(0, 300)), (6, Layer(700, 300)), (6, Layer(U32_MAX, 300)),
          (7, Layer(300, 0)), (7, Layer(300, 20_001)), (7, Layer(300, U32_MAX)))


def order_trials():
    """Each test of Check together with 5 of one layer too many, and with 6 and 7 of the layer that is tried."""
    for number in (number for number in SEQUENCE if number != 5):
        section, load = FAILINGS[number](SIXTEEN, UNDER_LOAD)
        for count, place in ((PLACES, PLACES), (17, 0), (17, 17), (SIZE_MOST, 0), (SIZE_MOST, SIZE_MOST)):
            yield LayerTrial(f"{number}, and place {place} of {count} layers", section._replace(count=count), load, place,
                             TRIED, first_of(number, 5))
        for place in (3, 8):
            yield LayerTrial(f"{number}, place {place}", section, load, place, TRIED, number)
            for fault, layer in (*FAULTS, (6, AT_FAULT)):
                yield LayerTrial(f"{number} and {fault}, place {place}", section, load, place, layer,
                                 first_of(number, fault))
    for fault, layer in (*FAULTS, (6, AT_FAULT)):
        yield LayerTrial(f"5 before {fault} of the seventeenth", SIXTEEN, UNDER_LOAD, PLACES, layer, 5)


def range_trials():
    """6 and 7 at both sides of their bounds, in place of the first layer, of one between and of the last, and added."""
    fifteen = SIXTEEN._replace(count=15)
    for place in (0, 7, 14, 15):
        for depth in (0, 1, 2, 698, 699, 700, 701, U32_MAX):
            yield LayerTrial(f"depth {depth} at place {place}", fifteen, UNDER_LOAD, place, Layer(depth, 777),
                             0 if 1 <= depth <= 699 else 6)
        for area in (0, 1, 2, 19_999, 20_000, 20_001, U32_MAX):
            yield LayerTrial(f"area {area} at place {place}", fifteen, UNDER_LOAD, place, Layer(333, area),
                             0 if 1 <= area <= 20_000 else 7)
    for height in (50, 2_000):
        low = second.section_of(300, height, 30, 500, [(10, 500)])
        for place in (0, 1):
            for depth in (height - 1, height):
                yield LayerTrial(f"depth {depth} at place {place} in h {height}", low, second.NO_LOAD, place,
                                 Layer(depth, 100), 0 if depth < height else 6)


def mending_trials():
    """The only layer at fault mended, spoiled otherwise and left as it is, and a good section spoiled; one of no layers."""
    for place in (0, 7, 15):
        for number, fault in FAULTS:
            faulty = with_layer(SIXTEEN, place, **fault._asdict())
            for label, section, at, layer, refusal in (
                    ("mended", faulty, place, TRIED, 0), ("left", faulty, 15 - place, TRIED, number),
                    ("spoiled", SIXTEEN, place, fault, number), ("spoiled by 6", faulty, place, Layer(700, 1), 6),
                    ("spoiled by 7", faulty, place, Layer(1, 0), 7)):
                yield LayerTrial(f"{number} at place {place}, {label}", section, UNDER_LOAD, at, layer, refusal)
    yield LayerTrial("no layers, mended", SIXTEEN._replace(count=0), UNDER_LOAD, 0, TRIED, 0)


def force_trials():
    """11, 12 and the first depth beyond 10h at the very newton of the copy, for both signs of M; replaced and added."""
    for section in in_each_case(second.SECTION_A, THREE, *COLUMNS):
        for place in {0, min(section.count, PLACES - 1)}:
            layer = Layer(section.height // 3, 300)
            copy = second.altered(section, place, layer)
            least, last = least_force(copy), last_of_both(copy)
            at_10h = min(last_up_to_10h(seen) for seen in faces_of(copy))
            for n, refusal in ((least - 1, 11), (least, 0), (at_10h, 0), (at_10h + 1, None), (last, 0), (last + 1, 12)):
                m = -1 if (n + place) % 2 else 1
                yield LayerTrial(f"N {n}, place {place}", section, Load(n, m, 0), place, layer, refusal)


def same_layer_trials():
    """A layer tried in its own place, and a second one like it."""
    for section in in_each_case(second.SECTION_A, THREE, linked(THREE)):
        for place in range(section.count + 1):
            yield LayerTrial(f"the same layer, place {place}", section, UNDER_LOAD, place,
                             section.layers[min(place, section.count - 1)], 0)


def dragged_trials():
    """A bar dragged from the top to the bottom, a millimetre at a time: 6 at both ends."""
    for depth in range(LOW_BEAM.height + 1):
        yield LayerTrial(f"dragged to {depth}", LOW_BEAM, Load(0, 10_000_000, 20_000), 1, Layer(depth, 400),
                         0 if 0 < depth < LOW_BEAM.height else 6)


def all_trials():
    """Every fixed trial."""
    for group in (place_trials, count_trials, first_trials, order_trials, range_trials, mending_trials, force_trials,
                  same_layer_trials, dragged_trials):
        yield from group()


# --- random trials ------------------------------------------------------------


def made_by_trial(rng, sample):
    """A trial whose copy is the sample: its layer replaces another, or is added. None where it has no layers.

    A number of layers above 16 stays as it is, whichever of them is another.
    """
    section, load = sample.section, sample.load
    if section.count == 0:
        return None
    if section.count > PLACES:
        place, layer = rng.choice((0, 15, 16, section.count - 1)), any_layer(rng)
    else:
        place = rng.randrange(section.count)
        layer = section.layers[place]
        section = with_layer(section, place, **any_layer(rng)._asdict())
        if place == section.count - 1 and rng.random() < 0.5:
            section = section._replace(count=place)  # the layer is added, and any other stands in its place
    return LayerTrial(f"made by a trial, {sample.label}", section, load, place, layer, sample.refusal)


def random_place(rng, count):
    """Mostly a place of the section or the one that adds; else one beyond."""
    return rng.choice((*[rng.randint(0, count)] * 6, count, count + 1, rng.randint(count + 1, SIZE_MOST)))


def random_layer(rng, section, place):
    """A layer of the section's height, one beside the layer in the place, or any."""
    height = section.height if 50 <= section.height <= 2_000 else 500
    within = Layer(edged(rng, 1, height - 1), edged(rng, 1, rng.choice((500, 3_000, 20_000))))
    there = section.layers[place] if place < section.count else within
    near = Layer(*(held(beside(rng, number), 0, U32_MAX) for number in there))
    return rng.choice((within, within, near, near._replace(area=within.area), near._replace(depth=within.depth),
                       any_layer(rng)))


def random_trials(rng, samples):
    """One for every third sample; in all of these the number of layers is that of a record."""
    for sample in samples[::3]:
        place = random_place(rng, sample.section.count)
        yield LayerTrial(f"a layer in {sample.label}", sample.section, sample.load, place,
                         random_layer(rng, sample.section, place))


# --- pairs between which a verdict turns --------------------------------------


class Turn(NamedTuple):
    """Two trials, the tried layers a unit of depth or of area apart: a verdict passes one and fails the other."""

    verdict: int  # 1 to 6
    trials: list


def answer_of(trial):
    """What second.py answers of it."""
    return second.try_layer(trial.section, trial.load, trial.place, trial.layer)


def resized(trial, field, size):
    """The trial with another depth or area of its layer."""
    return trial._replace(layer=trial.layer._replace(**{field: size}))


def turn_between(number, trial, field, least, most):
    """Where the verdict is no longer as at the least depth or area, by halving; at the most it is another."""
    def verdict_at(size):
        return answer_of(resized(trial, field, size)).verdicts[number - 1]

    first = verdict_at(least)
    last = second.greatest(lambda size: verdict_at(size) == first, least, most)
    return Turn(number, [resized(trial, field, size) for size in (last, last + 1)])


def from_the_bottom(turn):
    """The same with every depth measured from the other face, and M of the other sign."""
    def turned(trial):
        section, load, layer = trial.section, trial.load, trial.layer
        return trial._replace(section=second.turned_over(section), load=load._replace(m=-load.m),
                              layer=layer._replace(depth=section.height - layer.depth))

    return turn._replace(trials=[turned(trial) for trial in turn.trials])


# What is searched for each verdict; of less than 10 mm² N 0 may be 11.
SIZES = {**dict.fromkeys((1, 2, 3, 4, 5), ("area", 10, 20_000)), 6: ("depth", 100, 499)}


def fixed_turns():
    """Each verdict in each case, where a layer replaces another and where it is added, for both signs of M."""
    for section in in_each_case(BASE):
        for place in (0, 1):
            for number, sizes in SIZES.items():
                trial = LayerTrial(f"verdict {number}, place {place}", section, UNDER_LOAD, place, Layer(450, 1_500), 0)
                turn = turn_between(number, trial, *sizes)
                yield from (turn, from_the_bottom(turn))


def random_turn(rng, sample):
    """A verdict of the sample that turns between the least and the most depth or area of a layer, or None."""
    section, load = sample.section, sample.load
    place = rng.randint(0, min(section.count, PLACES - 1))
    trial = LayerTrial(f"a turn in {sample.label}", section, load, place, random_layer(rng, section, place))
    field, least, most = rng.choice((("area", 1, 20_000), ("depth", 1, section.height - 1)))
    ends = zip(*(answer_of(resized(trial, field, size)).verdicts for size in (least, most)))
    turning = [number for number, both in enumerate(ends, 1) if set(both) == {PASS, FAIL}]
    return turn_between(rng.choice(turning), trial, field, least, most) if turning else None


def random_turns(rng, samples):
    """Those found in some of the samples."""
    found = (random_turn(rng, sample) for sample in rng.sample(samples, min(len(samples), TURNS_SOUGHT)))
    return [turn for turn in found if turn]


# --- what was met -------------------------------------------------------------


def in_range(layer, section):
    """Whether 6 and 7 would take it."""
    return 1 <= layer.depth <= section.height - 1 and 1 <= layer.area <= 20_000


def refusals_met(trial, in_hand, answer):
    """Refusals, and what Check says of the section in hand beside them."""
    too_many = trial.section.count == trial.place == PLACES
    for number in (0, *second.SEQUENCES["Try a layer"]):
        yield "refusals (0 is none)", number, answer.refusal == number
    for number in (0, *SEQUENCE):
        yield "33 where Check refuses the section in hand by", number, (
            answer.refusal == PLACE_TEST and in_hand.refusal == number)
        if number != 5:
            yield "one more than sixteen layers where Check refuses these by", number, (
                too_many and in_hand.refusal == number and answer.refusal == first_of(number or 5, 5))
    for number in (5, 6, 7, 11, 12):
        yield "mended of refusal", number, answer.refusal == 0 and in_hand.refusal == number
        yield "spoiled by refusal", number, in_hand.refusal == 0 and answer.refusal == number


def places_met(trial, answer):
    """The places at which a layer was accepted, and numbers of layers with a place below them, equal to them and above."""
    count, place = trial.section.count, trial.place
    for number in range(PLACES):
        yield "replaced at place", number, answer.refusal == 0 and place == number < count
        yield "added at place", number, answer.refusal == 0 and place == number == count
    for name, number in COUNTS.items():
        for sign, at in (("<", number - 1), ("=", number), (">", number + 1)):
            if 0 <= at <= SIZE_MOST:
                yield "place beside the number of layers", f"{sign} {name}", count == number and place == at


def accepted_met(trial, answer):
    """Of an accepted trial: which section and load it is of, and what stood in the place and beyond the layers."""
    section, load, place, layer = trial.section, trial.load, trial.place, trial.layer
    added, there = place == section.count, section.layers[place]
    beyond = section.layers[section.count + added:]
    for case in CASES:
        yield "accepted in", case, case == case_of(section)
    for name, met in (
            ("M < 0", load.m < 0), ("M >= 0", load.m >= 0), ("links", answer.cotangent > 0),
            ("the face that M compresses up to 10h", answer.u <= second.greatest_depth(section)),
            ("the face that M compresses beyond 10h", answer.u > second.greatest_depth(section)),
            ("the other face beyond 10h", answer.other_u > second.greatest_depth(section)),
            ("a layer between others", 0 < place < section.count - 1),
            ("the same layer", not added and there == layer),
            ("another area alone", not added and there.depth == layer.depth and there.area != layer.area),
            ("another depth alone", not added and there.depth != layer.depth and there.area == layer.area),
            ("a layer in range stood where one is added", added and in_range(there, section)),
            ("a layer in range stands beyond", any(in_range(unread, section) for unread in beyond))):
        yield "accepted with", name, met


def altered_met(in_hand, answer):
    """What an accepted trial alters in an accepted section: figures and verdicts of Check. (The cotangent stays but for
    rounding, as links and strut resist in proportion to the same lever arm.)"""
    for name in ("u", "mrd", "other_u", "other_mrd", "vrd", "dm", "area", "link_resistance"):
        yield "it alters", name, getattr(answer, name) != getattr(in_hand, name)
    for number, (before, after) in enumerate(zip(in_hand.verdicts, answer.verdicts), 1):
        yield "it alters", f"v{number}", before != after


def note_trial(tally, trial, in_hand, answer):
    """Count what a trial met; in_hand is what Check answers of the section as it is."""
    found = [*refusals_met(trial, in_hand, answer), *places_met(trial, answer)]
    if answer.refusal == 0:
        found += accepted_met(trial, answer)
        found += altered_met(in_hand, answer) if in_hand.refusal == 0 else []
    for group, name, met in found:
        tally.coverage.note_tried(group, name, met)
    tally.coverage.refusals[PLACE_TEST] += answer.refusal == PLACE_TEST


def note_turn(tally, turn, answers):
    """Count between which trials a verdict turns."""
    section, load, place, _ = turn.trials[0][1:5]
    turned = {answer.verdicts[turn.verdict - 1] for answer in answers} == {PASS, FAIL}
    for number, added, below_0 in product(SIZES, (False, True), (False, True)):
        name = f"v{number}, {'added' if added else 'replaced'}, {'M < 0' if below_0 else 'M >= 0'}"
        met = turned and (turn.verdict, place == section.count, load.m < 0) == (number, added, below_0)
        tally.coverage.note_tried("pairs a unit apart between which a verdict turns", name, met)


# --- the comparison -----------------------------------------------------------


def copy_by_hand(section, place, layer):
    """The section altered in its sixteen places, or None where they have no such place."""
    if place > section.count or place >= PLACES:
        return None
    return with_layer(section, place, **layer._asdict())._replace(count=max(section.count, place + 1))


def compare_trial(tally, engine, trial, shown):
    """One trial: beside second.py, the papers and Check of a copy. What is shown of a section and a load is handed in."""
    section, load, place, layer = trial.section, trial.load, trial.place, trial.layer
    subject = f"{shown(section, load)} place {place:x} layer {layer.depth:x}/{layer.area:x}"
    expected, (answer, kept) = answer_of(trial), engine.try_layer(section, load, place, layer)
    tally.compare(f"Try a layer, {trial.label}", subject, expected, answer)
    tally.compare(f"Try a layer, the section in hand unchanged, {trial.label}", subject, True, kept)
    if trial.refusal is not None:
        tally.compare(f"refusal beside the paper, {trial.label}", subject, trial.refusal, answer.refusal)
    copy = copy_by_hand(section, place, layer)
    if copy:
        tally.compare(f"Try a layer and Check of the copy, {trial.label}", subject, engine.check(copy, load), answer)
    for name, met in (("second.py", True), ("the papers", trial.refusal is not None), ("Check of the copy", bool(copy))):
        tally.coverage.note_tried("compared with", name, met)
    note_trial(tally, trial, engine.check(section, load), expected)
    return expected


def compare_turn(tally, engine, turn, shown):
    """Both trials of a pair."""
    note_turn(tally, turn, [compare_trial(tally, engine, trial, shown) for trial in turn.trials])
