"""The same bars in another sequence: requests 2 and 6 of 02.

"Any rearrangement of the layers of a section gives the same depth, moment,
verdicts and refusal from the calls that find a depth, give a moment or check";
and "where both writes succeed, equal bags of layers with equal other fields now
give records of equal bytes". The counted layers of a sample are rearranged, all
else stays as it is, places beyond the count too, and the engine is asked again.
What it answers of the sample itself is compared with second.py elsewhere.
"""

import second
from met import REACHABLE, sequence_kinds

DRAWS = 5  # of a sequence that is neither the one in hand nor that back to front


def rearrangements(rng, section):
    """The section with its counted layers back to front, and in a third sequence where one is drawn: (its name, it)."""
    layers, rest = second.counted(section), section.layers[section.count:]
    back = layers[::-1]
    drawn = (tuple(rng.sample(layers, len(layers))) for _ in range(DRAWS))
    shuffled = next((moved for moved in drawn if moved not in (layers, back)), layers)
    for name, moved in (("back to front", back), ("shuffled", shuffled)):
        if moved != layers:
            yield name, section._replace(layers=moved + rest)


# --- what was met -------------------------------------------------------------


def depth_named(section, u):
    """Which of the two kinds of depth it is."""
    return "up to 10h" if u <= second.greatest_depth(section) else "beyond 10h"


def refusals_met(call, refusal):
    """Every refusal of the call's sequence: (its name, whether it was met here)."""
    for number in second.SEQUENCES[call]:
        yield f"refusal {number}", refusal == number


def find_met(section, answer):
    """What Find a depth answered of rearranged layers."""
    yield from refusals_met("Find a depth", answer.refusal)
    for name in ("up to 10h", "beyond 10h"):
        yield f"a depth {name}", answer.refusal == 0 and depth_named(section, answer.u) == name


def moment_met(section, u, answer):
    """What Moment at a depth answered of them."""
    yield from refusals_met("Moment at a depth", answer[0])
    for name in ("up to 10h", "beyond 10h"):
        yield f"a moment {name}", answer[0] == 0 and depth_named(section, u) == name


def check_met(section, load, report):
    """What Check answered of them: for either face compressed, links and tension layers; how many layers; both kinds of depth."""
    accepted = report.refusal == 0
    yield from refusals_met("Check", report.refusal)
    for name, m_holds in (("M < 0", load.m < 0), ("M >= 0", load.m >= 0)):
        yield f"{name}, with links", accepted and m_holds and report.cotangent > 0
        yield f"{name}, two or more tension layers", (
            accepted and m_holds and len(second.tension_layers(second.as_compressed(section, load.m), report.u)) > 1)
    for number in (2, 3, second.PLACES):
        yield f"{number} layers", accepted and section.count == number
    beyond = [u > second.greatest_depth(section) for u in (report.u, report.other_u)]
    yield "both faces up to 10h", accepted and beyond == [False, False]
    yield "the face that M compresses alone beyond 10h", accepted and beyond == [True, False]
    yield "the other face alone beyond 10h", accepted and beyond == [False, True]
    yield "both faces beyond 10h", accepted and beyond == [True, True]
    for place, values in enumerate(REACHABLE, 1):
        for value in values:
            yield f"v{place} is {value}", accepted and report.verdicts[place - 1] == value


def write_met(section, refusal):
    """What Write a record answered of them: which layers, and with which other fields."""
    written = refusal == 0
    yield from refusals_met("Write a record", refusal)
    for kind, so in sequence_kinds(second.counted(section)):
        yield f"layers {kind}", written and so
    yield "with links", written and second.has_links(section)
    yield "with a situation and αcc", (
        written and section.situation != second.PERSISTENT and section.alpha_cc != second.UNREDUCED)


# --- the comparison -----------------------------------------------------------


def note(tally, call, found):
    """Count what a call met of layers in another sequence."""
    for name, met in found:
        tally.coverage.note_call(f"{call} of rearranged layers: {name}", met)


def compare_asked(tally, rng, sample, asked, shown):
    """Each call that is asked, of each rearrangement as of the section itself.

    What is shown of a section and a load where the answers differ is handed in.
    """
    section, load = sample.section, sample.load
    others = list(rearrangements(rng, section))
    for call, arguments, ask, met in asked if others else ():
        answer = ask(section, *arguments)
        note(tally, call, met(answer))
        for name, other in others:
            tally.compare(f"{call} {arguments}, layers {name}, {sample.label}", shown(other, load),
                          answer, ask(other, *arguments))


def compare_rearranged(tally, rng, engine, sample, depths, shown):
    """Find a depth, Moment at these depths and Check: request 2 of 02."""
    section, load = sample.section, sample.load
    compare_asked(tally, rng, sample, (
        ("Find a depth", (load.n,), engine.find_depth, lambda answer: find_met(section, answer)),
        *(("Moment at a depth", (u,), engine.moment, lambda answer, u=u: moment_met(section, u, answer)) for u in depths),
        ("Check", (load,), engine.check, lambda answer: check_met(section, load, answer)),
    ), shown)


def compare_rearranged_writes(tally, rng, engine, sample, surroundings, shown):
    """Write a record: request 6 of 02. Refusal, length, and every byte of these rooms and beside them."""
    compare_asked(tally, rng, sample, [
        ("Write a record", (room,), lambda section, room: engine.write(section, sample.load, surroundings[room]),
         lambda answer: write_met(sample.section, answer[0][0])) for room in surroundings], shown)
