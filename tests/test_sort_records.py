"""sort-records: the layers of each record in sequence, every other byte as it was, and nothing lost."""

import random

import second
from running import (ACCIDENTAL_A_BYTES, BOTTOM_UP_BYTES, LINKED_A_BYTES, REDUCED_A_BYTES, SECTION_A_BYTES, TOP_DOWN_BYTES, CommandTest,
                     redirected, run, with_layers)

RANDOM_RECORDS = 5_000
OUT_OF_SEQUENCE = second.SEQUENCE_TEST


def fields_of(record):
    """The 8 bytes of each bit that stands."""
    return second.fields_read(record, second.bits_that_stand(record))


def with_fields(record, fields):
    """The record with these fields too, 8 bytes or a number each."""
    added = {bit: second.signed_bytes(field) if isinstance(field, int) else field for bit, field in fields.items()}
    return second.assemble({**fields_of(record), **added})


def without_fields(record, *bits):
    """The record without the fields of these bits."""
    return second.assemble({bit: field for bit, field in fields_of(record).items() if bit not in bits})


def apart(record):
    """A record's layers as they stand, and its map with its other fields."""
    fields = fields_of(record)
    layers = [fields.pop(bit) for bit in second.LAYER_BITS if bit in fields]
    return layers, (record[:4], fields)


def random_record(rng):
    """Any record that is whole: numbers of which many are what a missing one means, layers of which many are equal."""
    numbers, halves = (0, 1, 2, 100, -1, 49, 300, 2**63 - 1, -2**63), (0, 1, 50, 450, 2**32 - 1)
    likely = rng.random()
    fields = {bit: second.pair_bytes(rng.choice(halves), rng.choice(halves)) for bit in (second.LINK_BIT, *second.LAYER_BITS)}
    fields.update((bit, second.signed_bytes(rng.choice(numbers))) for bit in second.SIGNED_BITS)
    return second.assemble({bit: field for bit, field in fields.items() if rng.random() < likely})


def random_valid(rng):
    """A record that is read, but for its sequence: layers at any of their bits."""
    layers = [(rng.choice((50, 250, 450)), rng.choice((100, 200, 300))) for _ in range(rng.randint(1, 6))]
    bits = sorted(rng.sample(second.LAYER_BITS, len(layers)))
    return with_fields(without_fields(SECTION_A_BYTES, 8), {bit: second.pair_bytes(*layer) for bit, layer in zip(bits, layers)})


def parted(data):
    """The records of an input that is whole."""
    while data:
        length = second.record_length(second.bits_that_stand(data))
        yield data[:length]
        data = data[length:]


class SortTest(CommandTest):
    """What is written of records, and what is said of them."""

    def written(self, records, moved, of=1, files=()):
        """What is written where every record is whole; the note counts those that were out of sequence."""
        status, data, message = run("sort-records", *files, given=records)
        self.assertEqual((status, message), (0, f"sort-records: note: {moved} of {of} records had layers out of sequence\n"))
        return data

    def refused(self, *parts, records=b"", files=()):
        """Nothing is written, and a message has the parts."""
        status, data, message = run("sort-records", *files, given=records)
        self.assertEqual((status, data), (1, b""))
        self.says(message, *parts, "sort-records: nothing is written\n")


class Sorted(SortTest):
    """Layers by rising depth, and equal depths by rising area."""

    def test_a_record_from_the_bottom_up(self):
        self.assertEqual(self.written(BOTTOM_UP_BYTES, 1), TOP_DOWN_BYTES)

    def test_by_depth_and_then_by_area(self):
        record = with_layers((450, 100), (50, 400), (450, 1_500), (50, 20), (300, 9))
        self.assertEqual(self.written(record, 1), with_layers((50, 20), (50, 400), (300, 9), (450, 100), (450, 1_500)))

    def test_numbers_without_sign(self):
        record = with_layers((2**31, 1), (2**32 - 1, 0), (0, 2**32 - 1), (0, 2**31), (2**31 - 1, 1))
        self.assertEqual(self.written(record, 1),
                         with_layers((0, 2**31), (0, 2**32 - 1), (2**31 - 1, 1), (2**31, 1), (2**32 - 1, 0)))

    def test_equal_layers_are_kept(self):
        self.assertEqual(self.written(with_layers((450, 750), (50, 400), (450, 750)), 1),
                         with_layers((50, 400), (450, 750), (450, 750)))

    def test_sixteen_layers(self):
        layers = [(depth, area) for depth in (50, 150, 350, 450) for area in (100, 200, 200, 300)]
        self.assertEqual(self.written(with_layers(*layers[::-1]), 1), with_layers(*layers))

    def test_what_is_in_sequence_comes_out_as_it_was(self):
        records = (SECTION_A_BYTES, LINKED_A_BYTES, ACCIDENTAL_A_BYTES, REDUCED_A_BYTES, TOP_DOWN_BYTES, with_layers(*[(450, 750)] * 16),
                   with_layers((450, 700), (450, 800)), with_layers(), bytes(4))
        self.assertEqual(self.written(b"".join(records), 0, of=9), b"".join(records))

    def test_no_record_no_bytes(self):
        self.assertEqual(self.written(b"", 0, of=0), b"")


class Kept(SortTest):
    """What beside the layers' sequence comes out as it was."""

    def kept(self, alter, *what):
        """A record altered so keeps it, in sequence or not."""
        old, new = (alter(record, *what) for record in (BOTTOM_UP_BYTES, TOP_DOWN_BYTES))
        self.assertNotEqual(old, new)
        self.assertEqual(self.written(old + new, 1, of=2), new * 2)

    def test_links_situation_and_factor(self):
        links = second.pair_bytes(101, 200)
        for fields in ({7: links}, {24: 2}, {25: 85}, {7: links, 24: 2, 25: 85}, {4: -70_000, 7: links, 24: 1, 25: 100}):
            self.kept(with_fields, fields)

    def test_the_bits_of_the_layers(self):
        for bits in ((8, 9), (8, 23), (9, 10), (22, 23)):
            self.kept(second.at_bits, *bits)

    def test_numbers_that_a_missing_one_means(self):
        self.kept(with_fields, {4: 0, 5: 0, 6: 0, 24: 1, 25: 100})

    def test_numbers_that_the_engine_refuses(self):
        for bit, number in ((0, 49), (0, 0), (1, -1), (2, 31), (3, 2**63 - 1), (4, -2**63), (5, 10**12 + 1), (6, 500_000_001), (24, 0), (24, 3),
                            (25, 0), (25, 101)):
            with self.subTest(bit=bit, number=number):
                self.kept(with_fields, {bit: number})

    def test_links_that_the_engine_refuses(self):
        for links, others in (((101, 200), {4: 1}), ((0, 0), {}), ((2**32 - 1, 24), {})):
            self.kept(with_fields, {second.LINK_BIT: second.pair_bytes(*links), **others})

    def test_a_missing_field(self):
        self.kept(without_fields, 0)
        self.kept(without_fields, *second.MANDATORY_BITS)
        self.kept(without_fields, *range(8))


class Refused(SortTest):
    """Records that the engine refuses for something else are sorted too."""

    def test_the_other_refusal_stays(self):
        two = second.pair_bytes(450, 1_500), second.pair_bytes(50, 400)
        for number, fields in ((1, {0: 49}), (2, {1: 49}), (3, {2: 31}), (4, {3: 601}), (32, {24: 3}), (34, {25: 79}),
                               (6, {10: second.pair_bytes(0, 9)}), (7, {10: second.pair_bytes(60, 0)}), (23, None)):
            old = with_fields(SECTION_A_BYTES, {8: two[0], 9: two[1], **(fields or {})})
            old = old if fields else without_fields(old, 0)
            new = self.written(old, 1)
            self.assertEqual([second.read_record(record)[:2] for record in (old, new)], [(number, len(old))] * 2)

    def test_31_no_longer_hides_a_later_refusal(self):
        links = second.LINK_BIT
        for number, fields in ((8, {4: 500_000_001}), (9, {5: -10**12 - 1}), (10, {6: 500_000_001}), (27, {links: second.pair_bytes(0, 200)}),
                               (28, {links: second.pair_bytes(101, 24)}), (29, {4: 1, links: second.pair_bytes(101, 200)})):
            old = with_fields(BOTTOM_UP_BYTES, fields)
            new = self.written(old, 1)
            self.assertEqual([second.read_record(record).refusal for record in (old, new)], [OUT_OF_SEQUENCE, number])


class Inputs(SortTest):
    """Files and standard input, and what is broken in them."""

    def test_files_in_sequence(self):
        old, new = self.file("old.rec", BOTTOM_UP_BYTES + SECTION_A_BYTES), self.file("new.rec", TOP_DOWN_BYTES)
        self.assertEqual(self.written(BOTTOM_UP_BYTES, 3, of=6, files=(old, new, "-", old)),
                         TOP_DOWN_BYTES + SECTION_A_BYTES + TOP_DOWN_BYTES * 3 + SECTION_A_BYTES)
        self.assertEqual(old.read_bytes(), BOTTOM_UP_BYTES + SECTION_A_BYTES)

    def test_broken_records_write_nothing(self):
        for broken, fault in ((b"\0\0\1", "3 bytes are left; expected at least 4"),
                              (SECTION_A_BYTES[:59], "map 0000016F calls for 60 bytes; 59 are left"),
                              (bytes.fromhex("84000000"), "map 84000000 has bit 26, 31, which no field has; expected records")):
            with self.subTest(broken=broken.hex()):
                self.refused(f"standard input, record 2, from byte 68: {fault}", records=BOTTOM_UP_BYTES + broken)
                path = self.file("old.rec", broken)
                self.refused(f"{path}, record 1, from byte 0: {fault}", records=SECTION_A_BYTES, files=("-", path))

    def test_every_broken_input_is_named(self):
        cut, other = self.file("cut.rec", SECTION_A_BYTES[:-1]), self.file("other.rec", SECTION_A_BYTES + b"\0")
        self.refused(f"sort-records: {cut}, record 1, from byte 0: ", f"\nsort-records: {other}, record 2, from byte 60: ",
                     files=(cut, self.file("old.rec", BOTTOM_UP_BYTES), other))

    def test_a_file_that_is_not_there(self):
        cut = self.file("cut.rec", SECTION_A_BYTES[:-1])
        self.refused("cut.rec, record 1", "no-such-file", "No such file", records=SECTION_A_BYTES,
                     files=("-", cut, self.folder / "no-such-file"))

    def test_text_in_place_of_records(self):
        self.refused("record 1, from byte 0", "expected records", records="300 500 30 500 0 0 0 450/1500\n")

    def test_a_file_that_is_standard_output_too(self):
        path = self.file("both.rec", BOTTOM_UP_BYTES)
        for words in (f">>{path} {path}", f"<{path} >>{path}"):
            status, _, message = redirected(words, "sort-records")
            self.assertEqual((status, path.read_bytes()), (1, BOTTOM_UP_BYTES))  # nothing was added to it
            self.says(message, "standard output too", "another file")
        status, _, message = redirected(f">{path} {path}", "sort-records")
        self.assertEqual(status, 1)
        self.says(message, "standard output too", "emptied")  # by the shell


class AnyRecords(SortTest):
    """Random records, valid ones in any sequence and refused ones."""

    @classmethod
    def setUpClass(cls):
        rng = random.Random(6)
        cls.old = [rng.choice((random_record, random_valid))(rng) for _ in range(RANDOM_RECORDS)]
        cls.status, data, cls.message = run("sort-records", given=b"".join(cls.old))
        cls.new = list(parted(data))

    def test_the_layers_alone_move_and_none_is_lost(self):
        self.assertEqual((self.status, len(self.new)), (0, RANDOM_RECORDS))
        for old, new in zip(self.old, self.new):
            (layers, rest), (moved, same) = apart(old), apart(new)
            self.assertEqual((len(new), same, sorted(moved)), (len(old), rest, sorted(layers)))

    def test_no_record_that_comes_out_is_refused_by_31(self):
        before, after = ([second.read_record(record).refusal for record in records] for records in (self.old, self.new))
        self.assertNotIn(OUT_OF_SEQUENCE, after)
        changed = [(number, then) for number, then in zip(before, after) if number != then]
        self.assertEqual({number for number, _ in changed}, {OUT_OF_SEQUENCE})
        self.assertIn((OUT_OF_SEQUENCE, 0), changed)

    def test_the_layers_read_are_those_that_the_writer_would_write(self):
        for old, new in zip(self.old, self.new):
            (section, load), (sorted_section, same) = (second.meaning(fields_of(record)) for record in (old, new))
            self.assertEqual((sorted_section, same), (second.in_sequence(section), load))

    def test_the_note_counts_those_that_were_out_of_sequence(self):
        moved = sum(old != new for old, new in zip(self.old, self.new))
        self.says(self.message, f"note: {moved} of {RANDOM_RECORDS} records had layers out of sequence\n")
        self.assertTrue(0 < moved < RANDOM_RECORDS)

    def test_a_second_time_changes_nothing(self):
        again = b"".join(self.new)
        self.assertEqual(self.written(again, 0, of=RANDOM_RECORDS), again)
