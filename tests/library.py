"""Compares the engine's shared object with second.py, call by call.

The two tables below, and the class Engine that fills and reads the structs,
are all that is assumed of the library: where the C header says otherwise,
change them here. Every struct goes by value. A call whose row is taken out of
table 2 is left out; a row that the library does not have is a failure.
"""

import ctypes
from ctypes import POINTER, c_int64, c_size_t, c_uint8, c_uint32, c_uint64

import second
from layer_trials import all_trials, compare_trial, compare_turn, fixed_turns, made_by_trial, random_trials, random_turns
from met import CASES, case_of, halved_depth, sequence_kinds, trial_turns
from rearranged import compare_rearranged, compare_rearranged_writes
from samples import SIXTEEN, U32_MAX, Sample, UNDER_LOAD, all_samples, record, with_layer
from sampling import any_layer
from second import LINK_TESTS, NO_LINKS, Layer, Links, Load, Section
from tally import check_accuracy, check_accuracy_of_faces, check_stated

# --- table 1: structs -------------------------------------------------------

STRUCTS = {
    "Layer": [("depth", c_uint32), ("area", c_uint32)],
    "Grade": [("fck", c_int64), ("fyk", c_int64), ("situation", c_int64), ("alpha_cc", c_int64)],
    "Links": [("present", c_uint64), ("area", c_uint32), ("spacing", c_uint32)],
    "Section": [("layers", "Layer", 16), ("width", c_int64), ("height", c_int64),
                ("grade", "Grade"), ("links", "Links"), ("count", c_size_t)],
    "Load": [("n", c_int64), ("m", c_int64), ("v", c_int64)],
    "Depth": [("refusal", c_uint64), ("u", c_uint64), ("trials", c_uint64)],
    "Moment": [("refusal", c_uint64), ("moment", c_int64)],
    "Report": [("refusal", c_uint64), ("u", c_uint64), ("mrd", c_int64), ("other_u", c_uint64),
               ("other_mrd", c_int64), ("vrd", c_uint64), ("dm", c_uint64), ("area", c_uint64),
               ("cotangent", c_uint64), ("link_resistance", c_uint64), ("verdicts", c_uint64, second.VERDICTS)],
    "Reading": [("refusal", c_uint64), ("length", c_size_t), ("section", "Section"),
                ("load", "Load")],
    "Written": [("refusal", c_uint64), ("length", c_size_t)],
}

# --- table 2: calls (name in the library, arguments, answer) ----------------

BYTES = POINTER(c_uint8)
CALLS = {
    "find_depth": ("salwoerk_find_depth", ("Section", c_int64), "Depth"),
    "moment": ("salwoerk_moment_at", ("Section", c_uint64), "Moment"),
    "check": ("salwoerk_check", ("Section", "Load"), "Report"),
    "read": ("salwoerk_read", (BYTES, c_size_t), "Reading"),
    "write": ("salwoerk_write", ("Section", "Load", BYTES, c_size_t), "Written"),
    # input and its length, room for the text and its length
    "list": ("salwoerk_list", (BYTES, c_size_t, BYTES, c_size_t), "Written"),
    "try_layer": ("salwoerk_try_layer", ("Section", "Load", c_size_t, "Layer"), "Report"),
}

GUARD = 16  # bytes on either side of a lent buffer, which must not change


def structures():
    """The struct classes of table 1."""
    made = {}

    def ctype(kind, length=None):
        """A plain type or a struct made before, or an array of them."""
        plain = made[kind] if isinstance(kind, str) else kind
        return plain if length is None else plain * length

    for name, fields in STRUCTS.items():
        typed = [(field, ctype(*kind)) for field, *kind in fields]
        made[name] = type(name, (ctypes.Structure,), {"_fields_": typed})
    return made


def lent(data):
    """Bytes that the library may read; an empty input has an address too."""
    return (c_uint8 * max(len(data), 1)).from_buffer_copy(data or bytes(1))


def guarded(surroundings):
    """Memory with these bytes, the buffer between its guards, and the buffer's length."""
    memory = (c_uint8 * len(surroundings)).from_buffer_copy(surroundings)
    return memory, ctypes.cast(ctypes.byref(memory, GUARD), BYTES), len(surroundings) - 2 * GUARD


class Engine:
    """The library's calls, answering in the terms of second.py."""

    def __init__(self, path):
        self.structs = structures()
        loaded = ctypes.CDLL(path)
        self.calls = {name: self.declared(loaded, *row) for name, row in CALLS.items()
                      if hasattr(loaded, row[0])}

    def ctype(self, kind):
        """A struct of table 1 by its name, or a plain type."""
        return self.structs[kind] if isinstance(kind, str) else kind

    def declared(self, loaded, symbol, argument_kinds, answer_kind):
        """A function of the library with its types."""
        function = getattr(loaded, symbol)
        function.argtypes = [self.ctype(kind) for kind in argument_kinds]
        function.restype = self.ctype(answer_kind)
        return function

    def section(self, section):
        """A section as the library takes it, places beyond the count too."""
        places = list(section.layers) + [Layer(0, 0)] * (second.PLACES - len(section.layers))
        return self.structs["Section"](
            layers=(self.structs["Layer"] * second.PLACES)(*places),
            width=section.width, height=section.height,
            grade=self.structs["Grade"](fck=section.fck, fyk=section.fyk, situation=section.situation,
                                        alpha_cc=section.alpha_cc),
            links=self.structs["Links"](**section.links._asdict()), count=section.count)

    def load(self, load):
        """A load as the library takes it."""
        return self.structs["Load"](n=load.n, m=load.m, v=load.v)

    def find_depth(self, section, n):
        """Refusal, u and trials."""
        answer = self.calls["find_depth"](self.section(section), n)
        return second.Depth(answer.refusal, answer.u, answer.trials)

    def moment(self, section, u):
        """Refusal and moment resistance."""
        answer = self.calls["moment"](self.section(section), u)
        return answer.refusal, answer.moment

    @staticmethod
    def report(answer):
        """A report, verdicts as numbers."""
        return second.Report(answer.refusal, answer.u, answer.mrd, answer.other_u, answer.other_mrd,
                             answer.vrd, answer.dm, answer.area, answer.cotangent, answer.link_resistance,
                             tuple(answer.verdicts))

    def check(self, section, load):
        """The report."""
        return self.report(self.calls["check"](self.section(section), self.load(load)))

    def try_layer(self, section, load, place, layer):
        """The report, and whether the section that was handed over has the bytes that it had."""
        in_hand = self.section(section)
        before = bytes(in_hand)
        answer = self.calls["try_layer"](in_hand, self.load(load), place, self.structs["Layer"](*layer))
        return self.report(answer), bytes(in_hand) == before

    def read(self, data):
        """The reading, with every place of the section's layers and the number that says of links."""
        answer = self.calls["read"](lent(data), len(data))
        given, grade = answer.section, answer.section.grade
        layers = tuple(Layer(layer.depth, layer.area) for layer in given.layers)
        links = Links(given.links.present, given.links.area, given.links.spacing)
        section = Section(width=given.width, height=given.height, fck=grade.fck, fyk=grade.fyk,
                          situation=grade.situation, alpha_cc=grade.alpha_cc, count=given.count, layers=layers,
                          links=links)
        return second.Reading(answer.refusal, answer.length, section,
                              Load(n=answer.load.n, m=answer.load.m, v=answer.load.v))

    def write(self, section, load, surroundings):
        """Refusal and length, and all bytes with the guards beside the buffer."""
        memory, buffer, room = guarded(surroundings)
        answer = self.calls["write"](self.section(section), self.load(load), buffer, room)
        return (answer.refusal, answer.length), bytes(memory)

    def list(self, data, surroundings):
        """Refusal and length, and all bytes with the guards beside the buffer."""
        memory, buffer, room = guarded(surroundings)
        answer = self.calls["list"](lent(data), len(data), buffer, room)
        return (answer.refusal, answer.length), bytes(memory)


# --- samples that only the library can meet ---------------------------------


def beyond_count(rng, section):
    """'Places beyond the counted layers are never read': fill them with anything."""
    places = second.counted(section)
    rest = [any_layer(rng) for _ in range(second.PLACES - len(places))]
    return section._replace(layers=tuple(places) + tuple(rest))


def as_any_links(rng, section):
    """Links that mean the same: present by any number but 0, absent with any numbers."""
    if section.links == NO_LINKS:
        numbers = (rng.choice((0, 101, 5_001, U32_MAX, rng.getrandbits(32))) for _ in range(2))
        return section._replace(links=Links(0, *numbers))
    if section.links.present == 1:
        present = rng.choice((1, 1, 2, 256, 2**32, 2**63, 2**64 - 1, rng.randint(1, 2**64 - 1)))
        return section._replace(links=section.links._replace(present=present))
    return section


def as_handed_over(rng, section):
    """The same section with any bytes beyond its layers and any that say the same of links."""
    return as_any_links(rng, beyond_count(rng, section))


def links_refused(section, load):
    """The link test that fails, or 0."""
    return second.first_failing(second.link_tests(section, load))


def count_samples():
    """Test 5 for counts that no record carries, alone and before 6 and 7."""
    for count in (0, 17, 18, 2**32 + 1, 2**63, 2**64 - 1):
        for section in (SIXTEEN, with_layer(SIXTEEN, 2, depth=0), with_layer(SIXTEEN, 2, area=0)):
            yield Sample(f"count {count}", section._replace(count=count), UNDER_LOAD, 5)


def depths_for_moment(rng, section):
    """u inside its range, at both its ends and at 10h, then u of refusal 13, by their names; of a height of 500
    where the section's own is far out of range."""
    height = section.height if 0 < section.height < 10**6 else 500
    at_10h, at_30h = 10 * height, 30 * height
    inside = {"1": 1, "a depth up to 10h": rng.randint(1, at_10h), "10h": at_10h, "10h + 1": at_10h + 1,
              "a depth beyond 10h": rng.randint(at_10h + 1, at_30h), "30h": at_30h}
    return inside, {"0": 0, "30h + 1": at_30h + 1, "2^63": 2**63, "2^64 - 1": 2**64 - 1}


# --- the comparison ---------------------------------------------------------


def hexadecimal(section, load):
    """Section and load as they were handed over, in hexadecimal."""
    numbers = {**section._asdict(), **load._asdict()}
    layers = " ".join(f"{layer.depth:x}/{layer.area:x}" for layer in numbers.pop("layers"))
    present, area, spacing = numbers.pop("links")
    links = f" links {present:x} {area:x}/{spacing:x}"
    return " ".join(f"{name} {value:x}" for name, value in numbers.items()) + links + " layers " + layers


def note_case(tally, call, section, refusal):
    """Count in which situation and with which αcc a call answers."""
    answered_in = case_of(section) if refusal == 0 else None
    for case in CASES:
        tally.coverage.note_call(f"{call} answers in {case}", case == answered_in)


def note_refusal(tally, call, refusal):
    """Count that a call has each refusal of its sequence."""
    for number in second.SEQUENCES[call]:
        tally.coverage.note_call(f"{call} has refusal {number}", refusal == number)


def note_beyond(tally, section, n, answer):
    """Count what Find a depth meets beyond 10h (02, request 11)."""
    refusal, u, _ = answer
    beyond = refusal == 0 and u > second.greatest_depth(section)
    for case in CASES:
        tally.coverage.note_call(f"Find a depth answers beyond 10h in {case}", beyond and case == case_of(section))
    for name, met in (
            ("Check has 12 of the bottom", lambda: second.above_range(second.turned_over(section), n)),
            ("the force at 30h is below N, and not by rounding",
             lambda: second.force_beyond(section, second.last_depth(section)) + section.count < n),
            ("halving would find another depth", lambda: halved_depth(section, n) != u)):
        tally.coverage.note_call(f"Find a depth answers beyond 10h where {name}", beyond and met())
    tally.coverage.note_call("Find a depth has 12 from the force at 10h on",
                             refusal == 12 and second.reached_by_10h(second.upright(section), n - 1))


def note_trials(tally, section, n, answer):
    """Count what Find a depth meets of the halving rule (02, request 12)."""
    for name, met in trial_turns(section, n, answer):
        tally.coverage.note_call(f"Find a depth {name}", met)


def compare_depth(tally, rng, engine, sample):
    """Find a depth with its trials, what Moment at a depth answers for it, and demand 3 with that."""
    section, load = sample.section, sample.load
    expected, answer = second.find_depth(section, load.n), engine.find_depth(section, load.n)
    tally.compare(f"Find a depth, {sample.label}", hexadecimal(section, load), expected, answer)
    refusal, u, _ = answer
    note_case(tally, "Find a depth", section, refusal)
    note_refusal(tally, "Find a depth", refusal)
    tally.coverage.note_call("Find a depth answers where Check refuses the links",
                             refusal == 0 and links_refused(section, load) != 0)
    note_beyond(tally, section, load.n, expected)
    note_trials(tally, section, load.n, expected)
    if refusal == 0:
        moment = engine.moment(section, u)
        tally.compare(f"Moment at the depth found, {sample.label}", hexadecimal(section, load),
                      second.moment_at_depth(section, u), moment)
        check_accuracy(tally, rng, section, load, u, moment[1], second.upright(section))


def compare_moment(tally, rng, engine, sample):
    """Moment at a depth, refusal 13 included."""
    inside, outside = depths_for_moment(rng, sample.section)
    for name, u in {**inside, **outside}.items():
        expected = second.moment_at_depth(sample.section, u)
        tally.coverage.refusals[expected[0]] += expected[0] == 13
        note_case(tally, "Moment at a depth", sample.section, expected[0])
        note_refusal(tally, "Moment at a depth", expected[0])
        tally.coverage.note_call(f"Moment at a depth answers at {name}" if name in inside
                                 else f"Moment at a depth has refusal 13 at {name}",
                                 expected[0] == (0 if name in inside else 13))
        tally.coverage.note_call("Moment at a depth answers where Check refuses the links",
                                 expected[0] == 0 and links_refused(sample.section, sample.load) != 0)
        tally.compare(f"Moment at depth {u}, {sample.label}",
                      hexadecimal(sample.section, sample.load),
                      expected, engine.moment(sample.section, u))


def note_presence(tally, section, load, answer):
    """Count how Check was told of links."""
    present, *numbers = section.links
    accepted = answer.refusal == 0
    tally.coverage.note_call("Check accepts links present by another number than 1", accepted and present > 1)
    tally.coverage.note_call("Check accepts links present by a number whose low 32 bits are 0",
                             accepted and present > 0 and present % 2**32 == 0)
    tally.coverage.note_call("Check accepts absent links with numbers out of range", accepted and present == 0
                             and links_refused(section._replace(links=Links(1, *numbers)), second.NO_LOAD) != 0)
    tally.coverage.note_call("Check accepts absent links and N not 0", accepted and present == 0 and load.n != 0)


def compare_check(tally, rng, engine, sample):
    """Check, what the papers state of it, and demand 3 with its own MRd of each face."""
    section, load = sample.section, sample.load
    answer = engine.check(section, load)
    tally.compare(f"Check, {sample.label}", hexadecimal(section, load),
                  second.check(section, load), answer)
    check_stated(tally, sample, answer)
    note_presence(tally, section, load, answer)
    note_case(tally, "Check", section, answer.refusal)
    note_refusal(tally, "Check", answer.refusal)
    if answer.refusal == 0:
        check_accuracy_of_faces(tally, rng, section, load, answer)


def compare_sequence(tally, rng, engine, sample):
    """The same bars in another sequence (02, request 2): every call that does not read or write a record."""
    inside, outside = depths_for_moment(rng, sample.section)
    compare_rearranged(tally, rng, engine, sample, (*inside.values(), *outside.values()), hexadecimal)


def length_to_try(section, load):
    """The length of their record; of the example where they have none."""
    return second.write_record(section, load, bytearray(second.LONGEST_RECORD))[1] or len(second.EXAMPLE)


def note_written(tally, section, written):
    """Count what the writer was handed of sequences (02, request 6)."""
    layers, beyond = second.counted(section), section.layers[section.count:]
    for kind, so in sequence_kinds(layers):
        tally.coverage.note_call(f"Write a record, layers: {kind}", written and so)
    tally.coverage.note_call("Write a record, absent links with numbers",
                             written and not second.has_links(section) and section.links != NO_LINKS)
    tally.coverage.note_call("Write a record, a place beyond the count would come before a layer",
                             written and any(second.comes_too_late(max(layers), place) for place in beyond))


def compare_write(tally, rng, engine, sample):
    """Write a record into rooms around its length: every byte, guards too."""
    section, load = sample.section, sample.load
    length = length_to_try(section, load)
    for room in (0, length - 1, length, length + 1, length + 50):
        memory = bytearray(rng.randbytes(room + 2 * GUARD))
        answer = engine.write(section, load, bytes(memory))
        buffer = memory[GUARD:GUARD + room]
        expected = second.write_record(section, load, buffer)
        memory[GUARD:GUARD + room] = buffer
        tally.coverage.refusals[25] += expected[0] == 25
        tally.coverage.note_call("Write sets bit 7 for a present other than 1",
                                 expected[0] == 0 and section.links.present > 1)
        note_case(tally, "Write a record", section, expected[0])
        note_refusal(tally, "Write a record", expected[0])
        if room == length:
            note_written(tally, section, expected[0] == 0)
        for number in (32, 34, *LINK_TESTS):
            tally.coverage.note_call(f"Write: {number} before 25", expected[0] == number and room == 0)
        tally.compare(f"Write a record, room {room}, {sample.label}",
                      hexadecimal(section, load), (expected, bytes(memory)), answer)


def compare_written_sequence(tally, rng, engine, sample):
    """The same bars in another sequence (02, request 6): what is written of them, where there is room and where not."""
    length = length_to_try(sample.section, sample.load)
    surroundings = {room: rng.randbytes(room + 2 * GUARD) for room in (length - 1, length, length + 50)}
    compare_rearranged_writes(tally, rng, engine, sample, surroundings, hexadecimal)


def compare_read(tally, engine, label, data):
    """Read a record from bytes, whatever they are."""
    expected = second.read_record(data)
    note_refusal(tally, "Read a record", expected.refusal)
    tally.compare(f"Read a record, {label}", data.hex(), expected, engine.read(data))


def compare_read_as_it_stands(tally, rng, engine, sample):
    """The sample's layers laid out as they stand, where that is not the sequence of records (02, request 6)."""
    section = sample.section
    if section.count <= second.PLACES and second.out_of_sequence(second.counted(section)):
        compare_read(tally, engine, f"layers as they stand, {sample.label}", second.laid_out(section, sample.load))


def compare_read_back(tally, rng, engine, sample):
    """The sample's record and bytes after it, read again: the same section and load, 'with its layers so ordered' (02,
    request 6).

    A sample out of range has its refusal; a count above 16 has no record. Links
    come back present by 1, or absent with zeros.
    """
    section, load = sample.section, sample.load
    if section.count > second.PLACES:
        return
    written = record(section, load)
    data = written + rng.randbytes(rng.randint(0, 9))
    expected = second.read_record(data)
    note_case(tally, "Read back", section, expected.refusal)
    note_refusal(tally, "Read a record", expected.refusal)
    moved = second.out_of_sequence(second.counted(section))
    for name, met in (("in the sequence that they had", not moved), ("in another sequence", moved)):
        tally.coverage.note_call(f"Read back, layers {name}", expected.refusal == 0 and met)
    if expected.refusal == 0:
        empty = (Layer(0, 0),) * (second.PLACES - section.count)
        links = section.links._replace(present=1) if second.has_links(section) else NO_LINKS
        kept = section._replace(layers=second.counted(second.in_sequence(section)) + empty, links=links)
        expected = second.Reading(0, len(written), kept, load)
    tally.compare(f"Read back, {sample.label}", data.hex(), expected, engine.read(data))


def compare_list(tally, rng, engine, run):
    """The list's text without its first line; 25 and no byte changed where the buffer is too short."""
    room = 12 * len(run.data) + 48
    lines = second.list_text(run.data).encode()[len(second.HEADER):]
    for given, answer in ((room, (0, len(lines))), (room + 1, (0, len(lines))), (room - 1, (25, 0)), (0, (25, 0))):
        memory = bytearray(rng.randbytes(given + 2 * GUARD))
        listed = engine.list(run.data, bytes(memory))
        memory[GUARD:GUARD + answer[1]] = lines[:answer[1]]
        tally.compare(f"List, room {given}, {run.label}", run.data[:400].hex(), (answer, bytes(memory)), listed)


def compare_made_by_trial(tally, rng, engine, sample):
    """One sample in two once more, reached by a trial (02, request 9)."""
    trial = made_by_trial(rng, sample)
    if trial and rng.random() < 1 / 2:
        compare_trial(tally, engine, trial, hexadecimal)


SAMPLE_COMPARISONS = (
    (("find_depth", "moment"), compare_depth),
    (("moment",), compare_moment),
    (("check",), compare_check),
    (("find_depth", "moment", "check"), compare_sequence),
    (("write",), compare_write),
    (("write",), compare_written_sequence),
    (("read",), compare_read_back),
    (("read",), compare_read_as_it_stands),
    (("try_layer", "check"), compare_made_by_trial),
)


def compare_samples(tally, rng, engine, samples):
    """Every call that takes a section."""
    for sample in samples:
        sample = sample._replace(section=as_handed_over(rng, sample.section))
        for needed, comparison in SAMPLE_COMPARISONS:
            if engine.calls.keys() >= set(needed):
                comparison(tally, rng, engine, sample)


def compare_trials(tally, rng, engine, samples):
    """Layers tried before they are placed (02, request 9): at places and bounds, at random, and where a verdict turns."""
    def handed_over(trial):
        return trial._replace(section=as_handed_over(rng, trial.section))

    for trial in (*all_trials(), *random_trials(rng, samples)):
        compare_trial(tally, engine, handed_over(trial), hexadecimal)
    for turn in (*fixed_turns(), *random_turns(rng, samples)):
        compare_turn(tally, engine, turn._replace(trials=[handed_over(trial) for trial in turn.trials]), hexadecimal)


def compare_runs(tally, rng, engine, runs):
    """Read each record of inputs that are damaged or whole, and list them."""
    for run in runs:
        if "read" in engine.calls:
            for data in dict.fromkeys(data for _, data, _ in second.list_answers(run.data)):
                compare_read(tally, engine, run.label, data)
        if "list" in engine.calls and len(run.data) <= second.INPUT_ROOM:
            compare_list(tally, rng, engine, run)


def compare_library(tally, rng, path, samples, runs):
    """The whole comparison of the library."""
    engine = Engine(path)
    for name, row in CALLS.items():
        tally.require(f"the library has no {row[0]}", name in engine.calls)
    compare_samples(tally, rng, engine, all_samples())
    compare_samples(tally, rng, engine, count_samples())
    compare_samples(tally, rng, engine, samples)
    if engine.calls.keys() >= {"try_layer", "check"}:
        compare_trials(tally, rng, engine, samples)
    compare_runs(tally, rng, engine, runs)
