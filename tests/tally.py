"""Counts comparisons, prints differences, and spot-checks the accuracy."""

import second
from met import Coverage
from samples import record


class Tally:
    """What was compared, what differed, and what was met."""

    def __init__(self):
        self.passed = 0
        self.failed = 0
        self.coverage = Coverage()

    def compare(self, label, subject, expected, got):
        """Count one comparison; on a difference print its input and both answers."""
        if expected == got:
            self.passed += 1
            return
        self.failed += 1
        print(f"DIFFERS {label}\n  input    {subject}\n  expected {expected}\n  answered {got}")

    def require(self, label, met):
        """Count one condition that has no second answer beside it."""
        if met:
            self.passed += 1
            return
        self.failed += 1
        print(f"FAILS {label}")


def check_stated(tally, sample, report):
    """What the papers state of a sample beside an answer: refusal, verdict six and cotangent."""
    stated = (sample.refusal, sample.sixth, sample.cotangent)
    answered = (report.refusal, report.verdicts[5], report.cotangent)
    for name, expected, got in zip(("refusal", "verdict six", "cotangent"), stated, answered):
        if expected is not None:
            tally.compare(f"{name} beside the paper, {sample.label}", f"{sample.section} {sample.load}", expected, got)


def depths_compared(rng, section, u):
    """Two fractions p/q of the range: an end, at or just about u and u + 1, or any."""
    last = second.greatest_depth(section)
    fine = rng.randint(2, 10**6)
    below = (max(u * fine - 1, fine), fine)
    within = (min(u * fine + rng.randint(1, fine), last * fine), fine)
    beyond = (min((u + 1) * fine + 1, last * fine), fine)
    anywhere = (rng.randint(fine, last * fine), fine)
    ends = ((1, 1), (u, 1), (min(u + 1, last), 1), (last, 1))
    return rng.sample((*ends, below, within, beyond, anywhere), 2)


def check_accuracy(tally, rng, section, load, u, moment, seen):
    """Demand 3 for one face of an accepted answer, in exact fractions at a few depths.

    'The accuracy statement keeps to depths up to 10h' (02, request 11), each face for itself.
    """
    if not 1 <= u <= second.greatest_depth(seen):
        return  # beyond 10h it says nothing, and the comparison of answers has told where there is no such depth
    face = "the top" if seen == second.upright(section) else "the bottom"
    for p, q in depths_compared(rng, seen, u):
        tally.require(f"accuracy at {p}/{q} from {face} for u {u} and moment {moment} of "
                      f"{record(section, load).hex()}",
                      second.accuracy_holds(seen, load.n, u, moment, p, q))


def check_accuracy_of_faces(tally, rng, section, load, report):
    """Demand 3 for what Check reports of both faces, and of the one up to 10h where the other is beyond."""
    beyond = [u > second.greatest_depth(section) for u in (report.u, report.other_u)]
    tally.coverage.note_call("accuracy of the face that M compresses alone", beyond == [False, True])
    tally.coverage.note_call("accuracy of the other face alone", beyond == [True, False])
    check_accuracy(tally, rng, section, load, report.u, report.mrd, second.as_compressed(section, load.m))
    check_accuracy(tally, rng, section, load, report.other_u, report.other_mrd, second.as_other_face(section, load.m))
