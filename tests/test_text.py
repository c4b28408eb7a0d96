"""make-record and show-record: the text form, its units, its columns and its messages."""

import itertools
import os
import pty
import random
import subprocess

import second
from running import (ACCIDENTAL_A_BYTES, ACCIDENTAL_A_TEXT, BOTTOM_UP_BYTES, BOTTOM_UP_TEXT, EXAMPLES, LINKED_A_BYTES, LINKED_A_TEXT, PATIENCE,
                     REDUCED_A_BYTES, REDUCED_A_TEXT, SECTION_A_BYTES, SECTION_A_TEXT, TOP, TOP_DOWN_BYTES, TOP_DOWN_TEXT, CommandTest, command,
                     run, with_layers)


class TextTest(CommandTest):
    """A text that is right, and one that is wrong."""

    def made(self, text, *arguments):
        """The records of a text that has to be right."""
        status, records, message = run("make-record", *arguments, given=text)
        self.assertEqual((status, message), (0, ""))
        return records

    def refused(self, text, *parts):
        """A text that has to be wrong: nothing written, a message with the parts."""
        status, records, message = run("make-record", given=text)
        self.assertEqual((status, records), (1, b""))
        self.says(message, *parts)

    def mean(self, record, *texts):
        """Texts that mean the record."""
        for text in texts:
            with self.subTest(text=text):
                self.assertEqual(self.made(text), record)

    def same(self, *texts):
        """Texts that mean section A."""
        self.mean(SECTION_A_BYTES, *texts)


class Records(TextTest):
    """Text to records."""

    def test_section_a_is_the_papers_60_bytes(self):
        self.assertEqual(len(SECTION_A_BYTES), 60)
        self.same(SECTION_A_TEXT)

    def test_writing_styles_that_mean_the_same(self):
        self.same("300;500;30;500;0;200_000_000;80_000;450/1500",
                  "# a remark\n\n  300 500 30 500 - 200000000 +80000 450/1500 # another\r\n",
                  "300\t500\t30\t500\t0\t200000000\t80000\t450/1500\t# a tab before a remark",
                  "\ufeff" + SECTION_A_TEXT)

    def test_records_follow_one_another(self):
        self.assertEqual(self.made(SECTION_A_TEXT * 3), SECTION_A_BYTES * 3)

    def test_no_section_no_bytes(self):
        self.assertEqual(self.made("# nothing but a remark\n\n;;;;;;;;\n"), b"")

    def test_zero_loads_are_left_out(self):
        self.assertEqual(self.made("300 500 30 500 0 0 0 450/1500")[:4].hex(), "0000010f")
        self.assertEqual(self.made("300 500 30 500 1kN 0 -1kN 450/1500")[:4].hex(), "0000015f")

    def test_a_dash_leaves_out_any_field(self):
        self.assertEqual(self.made("- - - - - - -"), bytes(4))
        self.assertEqual(self.made("300 - 30 500 - - - 450/1500")[:4].hex(), "0000010d")

    def test_what_the_engine_refuses_can_still_be_written(self):
        record = self.made("0 -1 31 9223372036854775807 -9223372036854775808 0 0 0/4294967295")
        self.assertEqual(record.hex(), "0000011f" "0000000000000000" "ffffffffffffffff"
                         "000000000000001f" "7fffffffffffffff" "8000000000000000"
                         "00000000" "ffffffff")

    def test_sixteen_layers_fit_and_seventeen_do_not(self):
        start = "300 500 30 500 0 0 0"
        self.assertEqual(self.made(start + " 450/100" * 16)[:4].hex(), "00ffff0f")
        self.refused(start + " 450/100" * 17, "line 1, column 24", "layer 17", "16")

    def test_files_in_sequence_and_a_missing_one(self):
        example = EXAMPLES / "section-a.txt"
        self.assertEqual(self.made("", example, example), SECTION_A_BYTES * 2)
        status, records, message = run("make-record", example, TOP / "no-such-file.txt")
        self.assertEqual((status, records), (1, b""))
        self.says(message, "no-such-file.txt", "No such file")

    def test_a_dash_is_standard_input(self):
        self.assertEqual(self.made(SECTION_A_TEXT, EXAMPLES / "section-a.txt", "-"), SECTION_A_BYTES * 2)


class Units(TextTest):
    """Suffixes: exact, or refused."""

    def test_each_unit_is_converted_exactly(self):
        self.same("300 500 30 500 0 200kNm 80kN 450/1500",
                  "300mm 50cm 30 500 0kN 0.2MNm 0.08MN 45cm/15cm2",
                  "0.3m 0.5m 30MPa 500N/mm2 0N 200000000Nmm 80000N 0.45m/1500mm2",
                  "30cm;0.5 m;30;500;;200 kNm;80 kN;450mm/15cm2",
                  "30.0cm 500 30 500 0 +200.000_000kNm 80kN 450/1500".replace("_", ""),
                  "300 500 30 500 0 200kN·m 80kN 450/15cm²")

    def test_negative_and_small_fractions(self):
        record = self.made("300 500 30 500 -1.5kN -0.000001kNm -0.001kN 450/1500")
        reading = second.read_record(record)
        self.assertEqual(reading.load, second.Load(-1_500, -1, -1))

    def test_what_is_not_whole_in_the_records_unit(self):
        for word, place in (("0.5mm 500 30 500 0 0 0", "column 1 (b)"), ("300 50.05cm 30 500 0 0 0", "column 2 (h)"),
                            ("300 500 30 500 0.0001kN 0 0", "column 5 (N)"), ("300 500 30 500 0 1.5Nmm 0", "column 6 (M)"),
                            ("300 500 30 500 0 0 0.5N", "column 7 (V)"), ("300 500 30 500 0 0 0 450/0.001cm2", "column 8")):
            with self.subTest(word=word):
                self.refused(word, "line 1", place, "not whole")

    def test_decimals_need_a_unit(self):
        self.refused("300 500 30 500 0 1.5 0 450/1500", "column 6 (M)", "'1.5'", "no unit", "kNm")
        self.refused("300.0 500 30 500 0 0 0 450/1500", "column 1 (b)", "no unit")

    def test_a_unit_of_another_quantity(self):
        for line, place in (("300kN 500 30 500 0 0 0", "column 1 (b)"), ("300 500 30 500 0 80kN 0", "column 6 (M)"),
                            ("300 500 30 500 5kNm 0 0", "column 5 (N)"), ("300 500 30kN 500 0 0 0", "column 3 (fck)"),
                            ("300 500 30 500 0 0 0 450/15cm", "column 8"), ("300 500 30 500 0 0 5Kn", "column 7 (V)")):
            with self.subTest(line=line):
                self.refused(line, place, "no unit of this column", "expected")

    def test_a_unit_that_stands_alone(self):
        self.refused("300 500 30 500 0 200 kNm 80 kN 450/1500", "column 7 (V)", "directly after its number")
        self.refused("300 500 30 500 0 N 80000 N 450/1500", "column 6 (M)")

    def test_bars_are_rounded_down_once(self):
        for word, area in (("450/3x16", 603), ("450/1x8", 50), ("450/16x8", 804), ("45cm/5x20", 1570), ("450/2x32", 1608)):
            with self.subTest(word=word):
                record = self.made("300 500 30 500 0 0 0 " + word)
                self.assertEqual(second.read_record(record).section.layers[0], second.Layer(450, area))
        self.assertIn("rounded down", run("make-record", "--help")[1].decode())

    def test_bars_that_are_none(self):
        for word in ("450/3x", "450/x16", "450/3x16x2", "450/3x1.6", "450/3×16"):
            with self.subTest(word=word):
                self.refused("300 500 30 500 0 0 0 " + word, "column 8", "expected")

    def test_loads_in_likely_the_wrong_unit_get_a_note(self):
        status, records, message = run("make-record", given="300 500 30 500 0 200 80 450/1500\n" * 2)
        self.assertEqual((status, len(records)), (0, 120))
        self.says(message, "note", "line 1, column 6 (M)", "200 N·mm", "200kNm")
        self.assertEqual(message.count("\n"), 1)


class Columns(TextTest):
    """Empty cells, commas and titles."""

    def test_empty_cells_are_missing_values(self):
        for line in ("300;500;30;500;;200000000;80000;450/1500", "300,500,30,500,,200000000,80000,450/1500",
                     "300\t500\t30\t500\t\t200000000\t80000\t450/1500", "300; 500; 30; 500; ; 200000000; 80000;; 450/1500;;",
                     "300 , 500, 30, 500,, 200000000, 80000,, 450/1500,"):
            self.same(line)

    def test_an_empty_first_or_last_cell_moves_nothing(self):
        for line in (";500;30;500;0;200000000;;450/1500", ",500,30,500,0,200000000,,450/1500",
                     "\t500\t30\t500\t0\t200000000\t\t450/1500"):
            with self.subTest(line=line):
                self.assertEqual(self.made(line)[:4].hex(), "0000012e")
        self.assertEqual(self.made("300\t500\t30\t500\t0\t0\t\t")[:4].hex(), "0000000f")

    def test_a_comma_parts_only_where_nothing_else_does(self):
        self.same("300,500,30,500,0,200000000,80000,450/1500", "300, 500, 30, 500, 0, 200kNm, 80kN, 450/1500")
        self.refused("300 500 30 500 0 200,000,000 0 450/1500", "column 6 (M)", "comma")
        self.refused("300;500;30;500;0;200,000,000;0;450/1500", "column 6 (M)", "comma")
        self.refused("300,500,30,500,0,200,000,000,80000,450/1500", "column 8 (layer)", "commas part this line")

    def test_a_blank_within_a_cell_is_no_separator(self):
        self.refused("300;500;30;500;0;200 000 000;0;450/1500", "column 6 (M)", "one number")
        self.refused("300\t500 30 500 0 200000000 80000 450/1500", "column 2 (h)", "one number")
        self.refused("300 500 30 500 0 200\u00a0000\u00a0000 0 450/1500", "column 6 (M)", "U+00A0")

    def test_titles_in_any_sequence(self):
        self.same("V;M;N;fyk;fck;h;b;layers\n80000;200000000;;500;30;500;300;450/1500\n",
                  "Name,layers,b,h,fck,fyk,N,M,V\nBeam 1,450/1500,300,500,30,500,0,200000000,80000\n",
                  "b h fck fyk N M V layers\n" + SECTION_A_TEXT,
                  "# remark\nB\tH\tFCK\tFYK\tn\tm\tv\tlayer 1\tlayer 2\n300\t500\t30\t500\t\t200kNm\t80kN\t450/1500\t\n",
                  '"b","h","fck","fyk","N","M","V","d/A"\n"300","500","30","500","","200000000","80000","450/1500"\n')

    def test_several_layers_below_titles(self):
        two = self.made("300 500 30 500 0 0 0 50/400 450/1500")
        for text in ("b,h,fck,fyk,N,M,V,layers\n300,500,30,500,,,,50/400 450/1500",
                     "b;h;fck;fyk;N;M;V;layers;;Remark\n300;500;30;500;;;;50/400;450/1500;edge",
                     "b;h;fck;fyk;N;M;V;layers\n300;500;30;500;;;;50/400;450/1500",
                     "b;layer 1;h;layer 2;fck;fyk;N;M;V\n300;50/400;500;450/1500;30;500;;;",
                     "b h fck fyk N M V d/A ...\n300 500 30 500 - - - 50/400 450/1500"):
            with self.subTest(text=text):
                self.assertEqual(self.made(text), two)

    def test_units_in_titles(self):
        self.same("b [cm];h [m];fck [N/mm²];fyk (MPa);N [kN];M [kNm];V (kN);layers\n30;0.5;30;500;;200;80;450/1500",
                  "b;h;fck;fyk;N;M [kNm];V;layers\n300;500;30;500;;200;80kN;450/1500",
                  "b;h;fck;fyk;N;M [kNm];V;layers\n300;500;30;500;;0.2MNm;80kN;450/1500")
        self.refused("b;h;fck;fyk;N;M [kN];V;layers\n", "line 1, column 6", "'M [kN]'", "kNm")

    def test_titles_that_would_lose_a_column(self):
        self.refused("b;h;fck;fyk;N;M;VEd;layers\n300;500;30;500;0;0;0;450/1500", "line 1", "0 titles 'V'")
        self.refused("b;h;fck;fyk;N;M;V;M;layers\n300;500;30;500;0;0;0;0;450/1500", "line 1, column 8", "2 titles 'M'")
        self.refused("b;h;fck;fyk;N;M;V\n300;500;30;500;0;0;0", "line 1", "'layers'")
        self.refused("b h fck fyk N M V layers name\n300 500 30 500 0 0 0 450/1500 50/400", "line 1, column 9", "last")
        self.refused("b;h;fck;fyk;N;M;V;layers;name\n300;500;30;500;0;0;0;450/1500;x;50/400", "line 2", "column 10", "no title")

    def test_a_line_that_ends_too_early(self):
        self.refused("300 500 30 500 0 0", "line 1, column 7 (V)", "expected 7 cells")
        self.refused("Name;b;h;fck;fyk;N;M;V;layers\nBeam #1;300;500;30;500;0;0;0;450/1500", "line 2 'Beam'", "column 2 (b)")

    def test_the_name_of_a_line_is_in_its_messages(self):
        self.refused("Name;b;h;fck;fyk;N;M;V;layers\nBeam 7;300;500;30;500;0;2e8;0;450/1500",
                     "line 2 'Beam 7', column 7 (M)", "'2e8'")

    def test_quotes_that_do_not_match(self):
        self.refused('300;500;"30;500;0;0;0;450/1500', "line 1, column 3", "quotes")


class Links(TextTest):
    """Vertical links: by their name in a line, and in a column of their own below titles."""

    START = "300 500 30 500 0 200000000 80000 "
    TITLES = "b;h;fck;fyk;N;M;V;links;layers\n"

    def linked(self, *texts):
        """Texts that mean section A with links of 101 mm² every 200 mm."""
        self.mean(LINKED_A_BYTES, *texts)

    def field(self, word):
        """The field of bit 7 that a word makes."""
        record = self.made(f"300 500 30 500 0 0 0 {word} 450/1500")
        self.assertEqual(record[:4].hex(), "0000018f")
        return record[36:44].hex()

    def test_by_their_name_in_a_line(self):
        self.linked(LINKED_A_TEXT, self.START + "Links=101/200 450/1500", "300;500;30;500;;200kNm;80kN;links=101/200;450/1500",
                    "300,500,30,500,,200000000,80000,links=101/200,450/1500", "300\t500\t30\t500\t0\t200kNm\t80kN\tlinks=101/200\t450/1500",
                    "300;500;30;500;;200kNm;80kN;links=101/200 450/1500", self.START + "stirrups=101/200 450/1500")

    def test_anywhere_among_the_layers(self):
        self.linked(self.START + "450/1500 links=101/200")
        first, *others = (self.made(self.START + words) for words in (
            "links=101/200 50/400 450/1500", "50/400 links=101/200 450/1500", "50/400 450/1500 links=101/200"))
        self.assertEqual((others, len(first)), ([first] * 2, len(LINKED_A_BYTES) + 8))

    def test_area_and_spacing_each_in_its_half_of_the_field(self):
        for word, field in (("links=101/200", "00000065" "000000c8"), ("links=2x8/200", "00000064" "000000c8"),
                            ("links=4x10/15cm", "0000013a" "00000096"), ("links=1.01cm2/0.2m", "00000065" "000000c8"),
                            ("links=1_000mm2/100mm", "000003e8" "00000064")):
            with self.subTest(word=word):
                self.assertEqual(self.field(word), field)

    def test_what_the_engine_refuses_can_still_be_written(self):
        for word, field in (("links=0/0", "00000000" "00000000"), ("links=4294967295/4294967295", "ffffffff" "ffffffff"),
                            ("links=5001/24", "00001389" "00000018")):
            self.assertEqual(self.field(word), field)
        self.assertEqual(self.made("300 500 30 500 1kN 0 0 links=101/200 450/1500")[:4].hex(), "0000019f")

    def test_beside_sixteen_layers(self):
        self.assertEqual(self.made(self.START + "links=101/200" + " 450/100" * 16)[:4].hex(), "00ffffef")
        self.refused(self.START + "links=101/200" + " 450/100" * 17, "line 1, column 25", "layer 17", "16")

    def test_twice_is_once_too_often(self):
        self.refused(SECTION_A_TEXT + LINKED_A_TEXT.strip() + " links=101/200", "line 2, column 10", "'links=101/200' gives the links again",
                     "expected once")
        self.refused(self.TITLES + "300;500;30;500;;;;101/200;450/1500 links=101/200", "line 2, column 9 (layers)", "links again")

    def test_messages_name_line_column_and_what_was_expected(self):
        for word, *parts in (("links=101", "'101' is no link", "101/200", "2x8/200"), ("links=1/2/3", "'1/2/3' is no link"),
                             ("links=", "'' is no link"), ("links", "'links' is no layer", "links=101/200"),
                             ("links=x/200", "of the link 'x/200', 'x'", "mm²", "cm2"),
                             ("links=101/x", "'x' is no number", "whole number of mm"), ("links=101/20kN", "'20kN' has no unit"),
                             ("links=101/0.5mm", "not whole in mm"), ("links=-1/200", "does not fit a record"),
                             ("links=101/4294967296", "does not fit a record", "4294967295 mm"), ("links=2x/200", "'2x'"),
                             ("links=101/2x8", "'2x8'"), ("links=99999x99999/200", "does not fit a record")):
            with self.subTest(word=word):
                self.refused(SECTION_A_TEXT + self.START + word + " 450/1500\n", "standard input, line 2, column 8 (layer)", "expected", *parts)

    def test_before_the_last_number_they_are_none(self):
        self.refused("300 500 30 500 0 0 links=101/200 450/1500", "column 7 (V)", "'links=101/200' is no number")

    def test_a_diameter_in_place_of_an_area_gets_a_note(self):
        for text, place in ((self.START + "links=8/200 450/1500", "line 1, column 8 (layer)"),
                            (self.TITLES + "300;500;30;500;;;;8 / 200;450/1500", "line 2, column 8 (links)")):
            status, records, message = run("make-record", given=text)
            self.assertEqual((status, "00000008000000c8" in records.hex()), (0, True))
            self.says(message, "note", place, "8 mm²", "links=2x8/200")
        for word in ("links=1x5/200", "links=8mm2/200", "links=25/200"):
            self.field(word)  # without a note

    def test_a_column_of_links(self):
        for title in ("links", "Links", "link", "Shear links", "vertical links", "stirrups", "A/s", "Asw/s"):
            self.linked(f"b;h;fck;fyk;N;M;V;{title};layers\n300;500;30;500;;200kNm;80kN;101/200;450/1500")
        self.linked("Name,links,layers,b,h,fck,fyk,N,M,V\nBeam 1,101/200,450/1500,300,500,30,500,0,200000000,80000\n",
                    "layers;b;h;fck;fyk;N;M;V;links\n450/1500;300;500;30;500;;200kNm;80kN;101 mm2 / 20 cm",
                    self.TITLES + "300;500;30;500;;200kNm;80kN;links=101/200;450/1500",
                    "b;h;fck;fyk;N;M;V;layers\n300;500;30;500;;200kNm;80kN;links=101/200 450/1500",
                    "b h fck fyk N M V layers\n" + LINKED_A_TEXT)

    def test_an_empty_cell_or_a_dash_is_no_links(self):
        for cell in ("", "-", " "):
            self.same(self.TITLES + f"300;500;30;500;;200kNm;80kN;{cell};450/1500")
        self.same("layers;b;h;fck;fyk;N;M;V;links\n450/1500;300;500;30;500;;200kNm;80kN")

    def test_a_wrong_cell_of_the_column(self):
        self.refused("Name;" + self.TITLES + "Beam 7;300;500;30;500;;;;5.03;450/1500",
                     "line 2 'Beam 7', column 9 (links)", "'5.03' is no link", "101/200")

    def test_titles_that_would_lose_the_links(self):
        for title in ("links [mm²/mm]", "link area", "Link_spacing", "Area of links", "shear_links", "Asw", "stirrup legs"):
            with self.subTest(title=title):
                self.refused(f"b;h;fck;fyk;N;M;V;layers;{title}\n", "line 1, column 9", f"'{title}' is no title of links", "expected 'links'")
        self.same("Linked to;b;h;fck;fyk;N;M;V;layers\nplan 3;300;500;30;500;;200kNm;80kN;450/1500")

    def test_two_columns_of_links(self):
        self.refused("b;h;fck;fyk;N;M;V;links;A/s;layers\n", "line 1, column 9", "2 titles 'links'", "expected one")

    def test_no_column_of_links_where_blanks_part(self):
        self.refused("b h fck fyk N M V links layers\n300 500 30 500 0 0 0 50/400 450/1500", "line 1, column 8", "blanks", "links=101/200")

    def test_the_rule_is_in_the_help(self):
        self.assertIn("links=A/s", run("make-record", "--help")[1].decode())


class Situation(TextTest):
    """The design situation: by its name in a line, and in a column of its own below titles; by its word or its number."""

    START = "300 500 30 500 0 200000000 80000 "
    TITLES = "b;h;fck;fyk;N;M;V;situation;layers\n"

    def accidental(self, *texts):
        """Texts that mean section A in the accidental situation."""
        self.mean(ACCIDENTAL_A_BYTES, *texts)

    def test_by_its_name_in_a_line(self):
        self.accidental(ACCIDENTAL_A_TEXT, self.START + "situation=2 450/1500", self.START + "Situation=ACCIDENTAL 450/1500",
                        self.START + "450/1500 situation=accidental", "300;500;30;500;;200kNm;80kN;situation=accidental;450/1500",
                        "300,500,30,500,,200000000,80000,450/1500,situation=2", "300;500;30;500;;200kNm;80kN;450/1500 situation=2")

    def test_persistent_is_what_a_missing_one_means(self):
        self.same(self.START + "situation=1 450/1500", self.START + "450/1500 situation=persistent", self.START + "situation=+1 450/1500")

    def test_beside_links_and_sixteen_layers(self):
        first, *others = (self.made(self.START + words) for words in (
            "situation=2 links=101/200 450/1500", "links=101/200 situation=2 450/1500", "links=101/200 450/1500 situation=2"))
        self.assertEqual((first[:4].hex(), others), ("010001ef", [first] * 2))
        self.assertEqual(self.made("300 500 30 500 1kN 1kNm 1kN situation=2" + " 450/100" * 16)[:4].hex(), "01ffff7f")

    def test_what_the_engine_refuses_can_still_be_written(self):
        for word, field in (("0", "0000000000000000"), ("3", "0000000000000003"), ("-1", "ffffffffffffffff"),
                            ("9223372036854775807", "7fffffffffffffff"), ("-9223372036854775808", "8000000000000000")):
            with self.subTest(word=word):
                record = self.made(self.START + f"situation={word} 450/1500")
                self.assertEqual((record[:4].hex(), record[60:].hex()), ("0100016f", field))

    def test_messages_name_line_column_and_what_was_expected(self):
        for word in ("fire", "", "-", "2.0", "2kN", "accidental2", "accidental,", "1/2"):
            with self.subTest(word=word):
                self.refused(SECTION_A_TEXT + self.START + f"situation={word} 450/1500\n", "standard input, line 2, column 8 (layer)",
                             f"'{word}' is no situation; expected 1 or 'persistent', 2 or 'accidental'\n")
        self.refused(self.START + "situation=9223372036854775808 450/1500", "does not fit a record", "9223372036854775807\n")

    def test_without_its_name_it_is_no_layer(self):
        for word in ("accidental", "2", "situation"):
            self.refused(self.START + word + " 450/1500", "column 8 (layer)", f"'{word}' is no layer", "situation=accidental")
        self.refused("300 500 30 500 0 0 situation=2 450/1500", "column 7 (V)", "'situation=2' is no number")

    def test_twice_is_once_too_often(self):
        self.refused(self.START + "situation=1 450/1500 situation=2", "line 1, column 10", "'situation=2' gives the situation again", "once")
        self.refused(self.TITLES + "300;500;30;500;;;;2;450/1500 situation=2", "line 2, column 9 (layers)", "again")

    def test_a_column_of_situations(self):
        for title in ("situation", "Situation", "design situation", "Design Situation"):
            for cell in ("accidental", "Accidental", "2", "situation=2"):
                self.accidental(f"b;h;fck;fyk;N;M;V;{title};layers\n300;500;30;500;;200kNm;80kN;{cell};450/1500")
        self.accidental("Name,situation,layers,b,h,fck,fyk,N,M,V\nBeam 1,accidental,450/1500,300,500,30,500,0,200000000,80000\n",
                        "b;h;fck;fyk;N;M;V;layers\n300;500;30;500;;200kNm;80kN;situation=accidental 450/1500",
                        "b h fck fyk N M V layers\n" + ACCIDENTAL_A_TEXT)

    def test_an_empty_cell_or_a_dash_is_persistent(self):
        for cell in ("", "-", " ", "1", "persistent"):
            self.same(self.TITLES + f"300;500;30;500;;200kNm;80kN;{cell};450/1500")
        self.same("layers;b;h;fck;fyk;N;M;V;situation\n450/1500;300;500;30;500;;200kNm;80kN")

    def test_a_wrong_cell_of_the_column(self):
        self.refused("Name;" + self.TITLES + "Beam 7;300;500;30;500;;;;impact;450/1500",
                     "line 2 'Beam 7', column 9 (situation)", "'impact' is no situation", "'accidental'")

    def test_titles_that_would_lose_the_situation(self):
        for title in ("situation [1/2]", "Situations", "Accidental", "situation_no", "design_situation", "Bemessungssituation", "persistent?"):
            with self.subTest(title=title):
                self.refused(f"b;h;fck;fyk;N;M;V;layers;{title}\n", "line 1, column 9", f"'{title}' is no title of situation",
                             "expected 'situation', with cells 1 or 'persistent', 2 or 'accidental'")
        self.same("Accidentally;b;h;fck;fyk;N;M;V;layers\nplan 3;300;500;30;500;;200kNm;80kN;450/1500")

    def test_two_columns_and_one_where_blanks_part(self):
        self.refused("b;h;fck;fyk;N;M;V;situation;design situation;layers\n", "line 1, column 9", "2 titles 'situation'", "expected one")
        self.refused("b h fck fyk N M V situation layers\n300 500 30 500 0 0 0 2 450/1500", "line 1, column 8", "blanks",
                     "as in situation=accidental")

    def test_records_in_place_of_text(self):
        self.refused(ACCIDENTAL_A_BYTES, "line 1, column 1", "show-record")

    def test_the_rule_is_in_the_help(self):
        rules = run("make-record", "--help")[1].decode()
        for part in ("situation=S", "persistent", "accidental", "Table 2.1N"):
            self.assertIn(part, rules)


class LongTermFactor(TextTest):
    """αcc: the factor itself by its name in a line, and in a column of its own below titles; hundredths in the record."""

    START = "300 500 30 500 0 200000000 80000 "
    TITLES = "b;h;fck;fyk;N;M;V;alphacc;layers\n"
    NAMES = ("alphacc", "AlphaCC", "alpha_cc", "alpha-cc", "αcc", "α_cc", "ΑCC", "alfacc", "ɑcc", "\N{MATHEMATICAL ITALIC SMALL ALPHA}cc")
    EXTREMES = {"-0.05": "fffffffffffffffb", "0.00": "0000000000000000", "0.79": "000000000000004f", "1.01": "0000000000000065",
                "85.00": "0000000000002134", "92233720368547758.07": "7fffffffffffffff", "-92233720368547758.08": "8000000000000000"}

    def reduced(self, *texts):
        """Texts that mean section A with αcc 0.85."""
        self.mean(REDUCED_A_BYTES, *texts)

    def noted(self, text, *parts):
        """The records of a text that is right, with one note about it."""
        status, records, message = run("make-record", given=text)
        self.assertEqual((status, message.count("\n")), (0, 1))
        self.says(message, "note: ", *parts)
        return records

    def test_by_its_name_in_a_line(self):
        self.reduced(REDUCED_A_TEXT, *(f"{self.START}{name}=0.85 450/1500" for name in self.NAMES), self.START + "450/1500 alphacc=0.85",
                     "300;500;30;500;;200kNm;80kN;alphacc=0.85;450/1500", "300,500,30,500,,200000000,80000,450/1500,alphacc=0.85",
                     "300;500;30;500;;200kNm;80kN;450/1500 alphacc=0.85")

    def test_hundredths_whatever_the_decimals(self):
        self.reduced(*(f"{self.START}alphacc={word} 450/1500" for word in ("0.85", "+0.85", "00.850", "0.8500000")))
        self.same(*(f"{self.START}alphacc={word} 450/1500" for word in ("1", "1.0", "1.00", "+1.000")))
        self.assertEqual(self.made(self.START + "alphacc=0.9 450/1500")[-1], 90)
        for word in ("0.855", "0.8501", "0.001", "1.005"):
            self.refused(self.START + f"alphacc={word} 450/1500", "line 1, column 8 (layer)",
                         f"'{word}' is not whole in hundredths; expected a factor such as 0.85\n")

    def test_beside_situation_links_and_sixteen_layers(self):
        words = ("situation=2", "alphacc=0.85", "links=101/200", "450/1500")
        first, *others = (self.made(self.START + " ".join(turned)) for turned in itertools.permutations(words))
        self.assertEqual((first[:4].hex(), first[-16:].hex()), ("030001ef", "0000000000000002" "0000000000000055"))
        self.assertEqual((set(others), len(others)), ({first}, 23))
        self.assertEqual(self.made("300 500 30 500 1kN 1kNm 1kN situation=2 alphacc=0.8" + " 450/100" * 16)[:4].hex(), "03ffff7f")

    def test_what_the_engine_refuses_can_still_be_written(self):
        for word, field in self.EXTREMES.items():
            with self.subTest(word=word):
                record = self.made(self.START + f"alphacc={word} 450/1500")
                self.assertEqual((record[:4].hex(), record[60:].hex()), ("0200016f", field))

    def test_messages_name_line_column_and_what_was_expected(self):
        for word in ("", "-", ".85", "0.", "0,85", "85%", "17/20", "8.5e-1", "recommended"):
            with self.subTest(word=word):
                self.refused(SECTION_A_TEXT + self.START + f"alphacc={word} 450/1500\n", "standard input, line 2, column 8 (layer)",
                             f"'{word}' ", "expected a factor such as 0.85")
        self.refused(self.START + "alphacc=x 450/1500", "'x' is no factor; expected a factor such as 0.85\n")
        self.refused(self.START + "alphacc=0.85kN 450/1500", "'0.85kN' has no unit", "expected a factor such as 0.85\n")
        for word in ("92233720368547758.08", "-92233720368547758.09", "92233720368547759"):
            self.refused(self.START + f"alphacc={word} 450/1500", f"'{word}' does not fit a record", "9223372036854775807 hundredths\n")

    def test_hundredths_in_place_of_the_factor_get_a_note(self):
        said = "85 is taken as the factor 85; a factor is given as in 0.85\n"
        records = self.noted((self.START + "alphacc=85 450/1500\n") * 2, "line 1, column 8 (layer): " + said)
        self.assertEqual((len(records), records[-2:].hex()), (136, "2134"))
        self.noted(self.TITLES + "300;500;30;500;;;;85;450/1500", "line 2, column 8 (alphacc): " + said)
        self.noted(self.START + "alphacc=2 450/1500", "2 is taken as the factor 2")
        for word in ("85.00", "1.5", "1", "0"):
            self.made(self.START + f"alphacc={word} 450/1500")  # without a note

    def test_without_its_name_it_is_no_layer(self):
        for word in ("0.85", "alphacc", "alpha cc=0.85"):
            self.refused(self.START + word + " 450/1500", "column 8 (layer)", f"'{word.split()[0]}' is no layer",
                         "or by its name situation=accidental or alphacc=0.85 or links=101/200\n")
        self.refused("300 500 30 500 0 0 alphacc=0.85 450/1500", "column 7 (V)", "'alphacc=0.85' is no number")

    def test_twice_is_once_too_often(self):
        self.refused(self.START + "alphacc=1 450/1500 αcc=0.85", "line 1, column 10", "'αcc=0.85' gives the alphacc again", "once")
        self.refused(self.TITLES + "300;500;30;500;;;;0.85;450/1500 alphacc=0.85", "line 2, column 9 (layers)", "again")

    def test_a_column_of_factors(self):
        for title in (*self.NAMES, "alpha cc", "Alpha CC", "α cc", "long-term factor", "Long term factor", "αcc [-]", "alphacc (-)"):
            for cell in ("0.85", "alphacc=0.85"):
                self.reduced(f"b;h;fck;fyk;N;M;V;{title};layers\n300;500;30;500;;200kNm;80kN;{cell};450/1500")
        self.reduced("Name,alphacc,layers,b,h,fck,fyk,N,M,V\nBeam 1,0.85,450/1500,300,500,30,500,0,200000000,80000\n",
                     "b;h;fck;fyk;N;M;V;layers\n300;500;30;500;;200kNm;80kN;alphacc=0.85 450/1500",
                     "b h fck fyk N M V layers\n" + REDUCED_A_TEXT)

    def test_an_empty_cell_or_a_dash_is_1(self):
        for cell in ("", "-", " ", "1", "1.00"):
            self.same(self.TITLES + f"300;500;30;500;;200kNm;80kN;{cell};450/1500")
        self.same("layers;b;h;fck;fyk;N;M;V;alphacc\n450/1500;300;500;30;500;;200kNm;80kN")

    def test_a_wrong_cell_of_the_column(self):
        self.refused("Name;" + self.TITLES + "Beam 7;300;500;30;500;;;;0,85;450/1500",
                     "line 2 'Beam 7', column 9 (alphacc)", "'0,85' is no factor", "comma", "write 0.85\n")

    def test_titles_that_would_lose_the_factor(self):
        for title in ("alphacc factor of annex", "αcc value", "alphacc [%]", "alpha", "α", "Alpha [-]", "alpha value", "alpha factor",
                      "alpha c", "α_c", "αc,c", "alfa", "acc", "acc [-]", "a_cc", "a cc", "a.cc", "\\alpha_{cc}", "long-term",
                      "Long-term coefficient", "long-term reduction factor", "long-term effects"):
            with self.subTest(title=title):
                self.refused(f"b;h;fck;fyk;N;M;V;layers;{title}\n", "line 1, column 9", f"'{title}' is no title of alphacc",
                             "expected 'alphacc', with cells such as 0.85 or 1.00")
        for title in ("αcw", "alpha_ct", "alpha_e", "α [°]", "alpha deg", "Alphabetical", "Long-term load", "Account", "Acc. no."):
            self.same(f"{title};b;h;fck;fyk;N;M;V;layers\n0.85;300;500;30;500;;200kNm;80kN;450/1500")

    def test_two_columns_and_one_where_blanks_part(self):
        self.refused("b;h;fck;fyk;N;M;V;alphacc;αcc;layers\n", "line 1, column 9", "2 titles 'alphacc'", "expected one")
        for title in ("alphacc", "alpha cc", "long-term factor"):  # of two words, the first is a title of its own
            self.refused(f"b h fck fyk N M V {title} layers\n300 500 30 500 0 0 0 0.85 450/1500", "line 1, column 8", "alphacc")
        self.refused("b h fck fyk N M V αcc layers\n", "blanks", "as in alphacc=0.85")

    def test_records_in_place_of_text(self):
        for first in (b"\2", b"\3"):
            self.refused(first + REDUCED_A_BYTES[1:], "line 1, column 1", "show-record")

    def test_the_rule_is_in_the_help(self):
        rules = run("make-record", "--help")[1].decode()
        for part in ("alphacc=F", "αcc", "0.80 to 1.00", "3.1.6(1)"):
            self.assertIn(part, rules)


class Sequence(TextTest):
    """Layers: in any sequence in the text; by rising depth, and equal depths by rising area, in the record."""

    START = "300 500 30 500 0 200000000 80000 "

    def has(self, words, *layers):
        """The words make section A with these layers in this sequence."""
        self.mean(with_layers(*layers), self.START + words)

    def test_from_the_top_and_from_the_bottom(self):
        self.mean(TOP_DOWN_BYTES, TOP_DOWN_TEXT, BOTTOM_UP_TEXT)

    def test_by_depth_and_then_by_area(self):
        self.has("450/100 50/400 450/1500 50/20 300/9", (50, 20), (50, 400), (300, 9), (450, 100), (450, 1_500))

    def test_by_numbers_and_not_by_words(self):
        self.has("1000/9 99/10 99/9 10cm/3x16 0.1m/6cm2", (99, 9), (99, 10), (100, 600), (100, 603), (1_000, 9))
        self.has("4294967295/0 0/4294967295 2147483648/1 2147483647/1 0/0", (0, 0), (0, 2**32 - 1), (2**31 - 1, 1), (2**31, 1), (2**32 - 1, 0))

    def test_equal_layers_are_kept(self):
        self.has("450/750 50/400 450/750 50/400 450/750", *[(50, 400)] * 2, *[(450, 750)] * 3)

    def test_sixteen_layers(self):
        layers = [(depth, area) for depth in (50, 150, 350, 450) for area in (100, 200, 200, 300)]
        words = [f"{depth}/{area}" for depth, area in layers]
        for turned in (words, words[::-1], random.Random(6).sample(words, len(words))):
            self.has(" ".join(turned), *layers)

    def test_links_situation_and_factor_stay_as_they_are(self):
        record = (bytes.fromhex("030003EF") + TOP_DOWN_BYTES[4:52] + bytes.fromhex("00000065" "000000C8") + TOP_DOWN_BYTES[52:]
                  + bytes.fromhex("0000000000000002" "0000000000000055"))
        words = ["450/1500", "links=101/200", "50/400", "situation=2", "alphacc=0.85"]
        self.mean(record, *(self.START + " ".join(turned) for turned in (words, words[::-1], words[2:] + words[:2])))

    def test_below_titles(self):
        self.mean(TOP_DOWN_BYTES, "b;h;fck;fyk;N;M;V;layer 1;layer 2\n300;500;30;500;;200kNm;80kN;450/1500;50/400",
                  "layers;b;h;layers;fck;fyk;N;M;V\n450/1500;300;500;50/400;30;500;;200kNm;80kN",
                  "b,h,fck,fyk,N,M,V,layers\n300,500,30,500,,200kNm,80kN,450/1500 50/400")

    def test_the_rule_is_in_the_help(self):
        self.assertIn("rising depth", run("make-record", "--help")[1].decode())


class Messages(TextTest):
    """File, line, column, and what was expected."""

    def test_messages_name_line_column_and_what_was_expected(self):
        for line, *parts in (("300 500 30 500 0 2e8 0 450/1500", "column 6 (M)", "'2e8'", "whole number of N·mm"),
                             ("300 500 30 500 0 0 0 450", "column 8 (layer)", "'450' is no layer", "450/1500"),
                             ("300 500 30 500 0 0 0 450/1500/2", "column 8 (layer)", "450/3x16"),
                             ("300 500 30 500 0 0 0 450/", "column 8 (layer)", "whole number of mm²"),
                             ("300 500 thirty 500 0 0 0 450/1500", "column 3 (fck)", "'thirty'", "N/mm²")):
            with self.subTest(line=line):
                self.refused(SECTION_A_TEXT + "# remark\n" + line + "\n", "standard input, line 3", "expected", *parts)

    def test_messages_name_the_file(self):
        path = self.file("beams.csv", "300,500,30,500,0,0,x,450/1500\n")
        status, records, message = run("make-record", path)
        self.assertEqual((status, records), (1, b""))
        self.says(message, "beams.csv, line 1, column 7 (V): 'x'")

    def test_what_a_record_cannot_carry(self):
        for line, what in (("9223372036854775808 500 30 500 0 0 0 450/1500", "column 1 (b)"),
                           ("300 500 30 500 -9223372036854775809 0 0 450/1500", "column 5 (N)"),
                           ("300 500 30 500 0 0 0 4294967296/1500", "column 8"),
                           ("300 500 30 500 0 0 0 450/1500 50/-1", "column 9"),
                           ("300 500 30 500 0 99999999999999MNm 0", "column 6 (M)"),
                           ("300 500 30 500 0 0 0 450/99999x99999", "column 8")):
            with self.subTest(line=line):
                self.refused(line, "line 1", what, "does not fit a record")
        self.refused("300 500 30 500 0 0 " + "9" * 5_000 + " 450/1500", "column 7 (V)", "5000 characters")

    def test_every_wrong_line_is_named_and_no_right_one(self):
        status, records, message = run("make-record", given="x\n" + SECTION_A_TEXT + "y\n")
        self.assertEqual((status, records), (1, b""))
        self.assertEqual([line.split(", ")[1] for line in message.splitlines()], ["line 1", "line 3"])

    def test_a_unicode_minus_gets_a_hint(self):
        self.refused("300 500 30 500 \u22121000 0 0 450/1500", "column 5 (N)", "minus", "U+2212")

    def test_text_that_is_not_utf_8(self):
        self.refused(SECTION_A_TEXT.encode() + b"300 5\xff0 30 500 0 0 0 450/1500", "line 2, column 2 (h)", "FF", "UTF-8")
        self.refused(SECTION_A_TEXT.encode("utf-16"), "line 1, column 1", "UTF-8", "expected")
        self.assertEqual(self.made(b"# Tr\xe4ger\n" + SECTION_A_TEXT.encode()), SECTION_A_BYTES)

    def test_records_in_place_of_text(self):
        self.refused(SECTION_A_BYTES, "line 1, column 1", "show-record")

    def test_control_characters_are_not_echoed(self):
        self.refused("300 500 30 \x1b[31m500 0 0 0 450/1500", "column 4 (fyk)", "\\x1b")
        self.refused("300 500 30 500 0 0 0 4\x0050/1500\u202e", "column 8")
        status, _, message = run("make-record", "--no-\x1b[31m")
        self.assertEqual(status, 2)
        self.says(message, "\\x1b")
        status, _, message = run("make-record", os.fsencode(self.folder) + b"/\x1b[31m\xff")
        self.assertEqual(status, 1)
        self.says(message, "No such file", "\\x1b")

    def test_an_ascii_locale(self):
        ascii_only = {**os.environ, "LC_ALL": "C", "PYTHONUTF8": "0", "PYTHONCOERCECLOCALE": "0"}
        for tool in ("make-record", "show-record", "sort-records", "check-list"):
            status, text, message = run(tool, "--help", env=ascii_only)
            self.assertEqual((status, message), (0, ""))
            self.assertIn("usage", text.decode())
        status, text, _ = run("show-record", given=SECTION_A_BYTES, env=ascii_only)
        self.assertEqual((status, "N/mm²" in text.decode()), (0, True))
        self.says(run("make-record", given="300 500 30 500 \u22121 0 0", env=ascii_only)[2], "N", "U+2212")


class Help(TextTest):
    """--help, arguments that are none, and a terminal."""

    def test_help(self):
        for tool, part in (("make-record", "kNm"), ("show-record", "make-record"), ("sort-records", "rising depth"),
                           ("check-list", "--text"), ("build-library", "libsalwoerk.so")):
            status, text, message = run(tool, "--help")
            self.assertEqual((status, message), (0, ""))
            self.assertIn(part, text.decode())

    def test_arguments_that_are_not_understood(self):
        for tool, *arguments in (("make-record", "--spilt", "x"), ("show-record", "--text"), ("sort-records", "--split", "x"),
                                 ("check-list", "--list"), ("check-list", "one", "two"), ("build-library", "here")):
            with self.subTest(tool=tool):
                status, text, message = run(tool, *arguments, given=SECTION_A_TEXT)
                self.assertEqual((status, text), (2, b""))
                self.says(message, tool, "--help")

    def test_a_terminal_is_told_what_is_awaited(self):
        for tool, part, lines in (("make-record", "b h fck fyk N M V", 1), ("show-record", "records", 1),
                                  ("sort-records", "records", 2), ("check-list", "records", 1)):  # the second one is its note
            ours, terminal = pty.openpty()
            try:
                os.write(ours, b"\x04")
                done = subprocess.run(command(tool), stdin=terminal, capture_output=True, timeout=PATIENCE, check=False)
            finally:
                os.close(ours)
                os.close(terminal)
            self.assertEqual(done.returncode, 0)
            self.says(done.stderr.decode(), "awaiting", part)
            self.assertEqual(done.stderr.count(b"\n"), lines)

    def test_no_binary_to_a_terminal(self):
        for tool, given in (("make-record", SECTION_A_TEXT), ("sort-records", SECTION_A_BYTES)):
            ours, terminal = pty.openpty()
            try:
                status, _, message = run(tool, given=given, stdout=terminal)
                os.set_blocking(ours, False)
                with self.assertRaises(BlockingIOError):  # nothing was written to it
                    os.read(ours, 1)
            finally:
                os.close(ours)
                os.close(terminal)
            self.assertEqual(status, 1)
            self.says(message, "terminal")


class Split(TextTest):
    """More than the list program takes at once."""

    def test_more_than_the_list_program_takes_is_noted(self):
        status, records, message = run("make-record", given=SECTION_A_TEXT * 1_093)
        self.assertEqual((status, len(records)), (0, 65_580))
        self.says(message, "65536", "--split")

    def test_split_writes_whole_records(self):
        prefix = self.folder / "lot-"
        said = self.made(SECTION_A_TEXT * 11_000, "--split", prefix).decode().splitlines()
        files = sorted(self.folder.iterdir())
        self.assertEqual([path.name for path in files], [f"lot-{number:02}" for number in range(1, 12)])
        self.assertEqual(said[1], f"{files[1]}: records 1093 to 2184")
        self.assertEqual(b"".join(path.read_bytes() for path in files), SECTION_A_BYTES * 11_000)
        for path in files:
            self.assertEqual(path.stat().st_size % 60, 0)
            self.assertLessEqual(path.stat().st_size, 65_536)

    def test_split_spares_what_is_there(self):
        prefix = self.folder / "lot-"
        kept = self.file("lot-2", "kept")
        status, text, message = run("make-record", "--split", prefix, given=SECTION_A_TEXT * 1_093)
        self.assertEqual((status, text), (1, b""))
        self.says(message, "lot-2")
        self.assertEqual([(path.name, path.read_bytes()) for path in self.folder.iterdir()], [("lot-2", b"kept")])
        self.assertEqual(kept.read_bytes(), b"kept")

    def test_split_of_nothing_or_nowhere(self):
        self.assertEqual(self.made("# remark\n", "--split", self.folder / "lot-"), b"")
        self.assertEqual(list(self.folder.iterdir()), [])
        status, _, message = run("make-record", "--split", self.folder / "none" / "lot-", given=SECTION_A_TEXT)
        self.assertEqual(status, 1)
        self.says(message, "No such file")


class ShowRecord(TextTest):
    """Records to text, and back."""

    def lines(self, records, *arguments, noted=()):
        """The lines of text that are no remarks; `noted` are the records that a note names each."""
        status, text, message = run("show-record", *arguments, given=records)
        self.assertEqual((status, message), (0, "".join(map(self.note, noted))))
        return [line.split() for line in text.decode().splitlines() if not line.startswith("#")]

    @staticmethod
    def note(named):
        """What is said of records that are out of sequence."""
        return (f"show-record: note: {named}: layers out of sequence (rising depth, then rising area), "
                "which the engine does not read (31); sort-records puts them in sequence\n")

    def back(self, records):
        """The records after one way through text."""
        return self.made(run("show-record", given=records)[1])

    def test_section_a(self):
        self.assertEqual(self.lines(SECTION_A_BYTES), [SECTION_A_TEXT.split()])

    def test_section_a_with_links(self):
        self.assertEqual(self.lines(LINKED_A_BYTES), [LINKED_A_TEXT.split()])

    def test_section_a_in_the_accidental_situation(self):
        self.assertEqual(self.lines(ACCIDENTAL_A_BYTES), [ACCIDENTAL_A_TEXT.split()])

    def test_a_situation_of_another_number(self):
        self.assertEqual(self.lines(ACCIDENTAL_A_BYTES[:-1] + b"\3"), [ACCIDENTAL_A_TEXT.replace("accidental", "3").split()])

    def test_a_present_1_keeps_its_meaning(self):
        present = ACCIDENTAL_A_BYTES[:-1] + b"\1"
        self.assertEqual((self.lines(present), self.back(present)), ([SECTION_A_TEXT.split()], SECTION_A_BYTES))

    def test_section_a_with_a_long_term_factor(self):
        self.assertEqual(self.lines(REDUCED_A_BYTES), [REDUCED_A_TEXT.split()])

    def test_any_long_term_factor_and_back(self):
        for word, field in LongTermFactor.EXTREMES.items():
            record = REDUCED_A_BYTES[:-8] + bytes.fromhex(field)
            self.assertEqual((self.lines(record), self.back(record)), ([REDUCED_A_TEXT.replace("0.85", word).split()], record))

    def test_a_present_100_keeps_its_meaning(self):
        present = REDUCED_A_BYTES[:-1] + b"\x64"
        self.assertEqual((self.lines(present), self.back(present)), ([SECTION_A_TEXT.split()], SECTION_A_BYTES))

    def test_situation_factor_and_links_in_this_sequence(self):
        words = "300 500 30 500 0 200000000 80000 situation=accidental alphacc=0.80 links=101/200 450/1500"
        self.assertEqual(self.lines(self.made(words)), [words.split()])

    def test_no_record_no_line(self):
        self.assertEqual(self.lines(b""), [])

    def test_what_make_record_wrote_comes_back_byte_by_byte(self):
        several = self.made("", EXAMPLES / "several.txt")
        extremes = self.made("- 9223372036854775807 -1 0 -9223372036854775808 1kNm -1kN 4294967295/0 0/4294967295\n"
                             "- - - - - - -\n- - - - - - - links=0/0\n1 2 3 4 5kN 6kNm 7kN 8/9 links=4294967295/4294967295\n"
                             "- - - - - - - situation=0\n1 2 3 4 5kN 6kNm 7kN situation=-9223372036854775808 links=99/0 8/9\n"
                             "- - - - - - - alphacc=0\n1 2 3 4 5kN 6kNm 7kN situation=3 alphacc=-92233720368547758.08 links=99/0 8/9\n")
        for records in (SECTION_A_BYTES, LINKED_A_BYTES, ACCIDENTAL_A_BYTES, REDUCED_A_BYTES, several, extremes):
            self.assertEqual(self.back(records), records)

    def test_gaps_and_present_zeros_keep_their_meaning(self):
        section = second.section_of(300, 500, 30, 500, [(50, 400), (450, 1_500)])
        fields = second.fields_written(section, second.Load(0, 7_000_000, 0))
        first, next_one, *_, last = second.LAYER_BITS
        spread = {**fields, 4: bytes(8), 6: bytes(8), last: fields[next_one]}
        del spread[next_one]
        record = second.assemble(spread)
        again = self.back(record)
        self.assertNotEqual(again, record)
        self.assertEqual(second.read_record(again).load, second.read_record(record).load)
        self.assertEqual(second.read_record(again).section, section)

    def test_layers_out_of_sequence_are_shown_as_they_stand(self):
        for layers in ([(450, 1_500), (50, 400)], [(450, 800), (450, 700)], [(50, 9), (450, 1), (450, 2), (449, 3)]):
            words = [f"{depth}/{area}" for depth, area in layers]
            self.assertEqual(self.lines(with_layers(*layers), noted=["standard input, record 1"]), [SECTION_A_TEXT.split()[:-1] + words])

    def test_make_record_puts_them_in_sequence(self):
        self.assertEqual(self.back(BOTTOM_UP_BYTES), TOP_DOWN_BYTES)

    def test_layers_in_sequence_get_no_note(self):
        for layers in ([(50, 400), (450, 1_500)], [(450, 700), (450, 800)], [(450, 750)] * 16, []):
            self.assertEqual(len(self.lines(with_layers(*layers))), 1)
        self.lines(bytes.fromhex("00800100") + TOP_DOWN_BYTES[52:])  # with a gap

    def test_the_note_names_ten_records_and_counts_the_others(self):
        ten = "standard input, record 1, 3, 5, 7, 9, 11, 13, 15, 17, 19"
        for count, named in ((10, ten), (11, f"{ten} and 1 more"), (2_000, f"{ten} and 1990 more")):
            self.assertEqual(len(self.lines((BOTTOM_UP_BYTES + SECTION_A_BYTES) * count, noted=[named])), 2 * count)

    def test_a_note_for_each_input(self):
        path, other = self.file("old.rec", SECTION_A_BYTES + BOTTOM_UP_BYTES), self.file("new.rec", TOP_DOWN_BYTES)
        lines = self.lines(BOTTOM_UP_BYTES, path, other, "-", path,
                           noted=[f"{path}, record 2", "standard input, record 1", f"{path}, record 2"])
        self.assertEqual(lines, [text.split() for text in (SECTION_A_TEXT, BOTTOM_UP_TEXT, TOP_DOWN_TEXT, BOTTOM_UP_TEXT, SECTION_A_TEXT,
                                                           BOTTOM_UP_TEXT)])

    def test_a_note_comes_before_what_is_wrong(self):
        status, _, message = run("show-record", given=BOTTOM_UP_BYTES + b"\0\0")
        self.assertEqual((status, message), (1, self.note("standard input, record 1") + "show-record: standard input, record 2, from byte 68: "
                                             "2 bytes are left; expected at least 4\n"))

    def test_broken_records_are_named_after_the_whole_ones(self):
        for broken, fault in ((b"\0\0", "2 bytes are left"), (SECTION_A_BYTES[:59], "calls for 60 bytes; 59 are left"),
                              (bytes.fromhex("00000080"), "calls for 12 bytes; 4 are left"),
                              (bytes.fromhex("01000000"), "calls for 12 bytes; 4 are left"),
                              (bytes.fromhex("02000000"), "calls for 12 bytes; 4 are left"), (bytes.fromhex("87000000"), "bit 26, 31")):
            with self.subTest(broken=broken.hex()):
                status, text, message = run("show-record", given=SECTION_A_BYTES + broken)
                self.assertEqual(status, 1)
                self.says(message, "record 2, from byte 60", fault)
                self.assertEqual(text.decode().splitlines()[-1].split(), SECTION_A_TEXT.split())


class Examples(TextTest):
    """The example files, through the second implementation."""

    def answers(self, name):
        """What the list says of each record of an example."""
        return second.list_text(self.made("", EXAMPLES / name)).splitlines()[1:]

    def test_section_a_prints_the_papers_line(self):
        self.assertEqual(self.answers("section-a.txt"), ["1 0 1358 257986051 86851 450 1500 0 0 0 0 0 2"])

    def test_several_has_the_refusals_that_its_remarks_say(self):
        self.assertEqual([line.split()[1] for line in self.answers("several.txt")], ["0"] * 12 + ["3", "29", "12"])

    def test_several_has_the_verdicts_that_its_remarks_say(self):
        three_and_six = [(line.split()[9], line.split()[12]) for line in self.answers("several.txt")]
        self.assertEqual(three_and_six[1:4], [("1", "2"), ("1", "0"), ("1", "1")])

    def turned_by(self, word, verdicts, without):
        """The one line of several.txt that has the word has the verdicts, and without the word the others."""
        line, = (line for line in (EXAMPLES / "several.txt").read_text().splitlines() if word in line and not line.startswith("#"))
        for text, expected in ((line, verdicts), (line.replace(word, ""), without)):
            self.assertEqual(second.list_text(self.made(text)).split()[-6:], expected.split())

    def test_several_has_a_beam_that_stands_in_the_accidental_situation_alone(self):
        self.turned_by("situation=accidental", "0 0 0 0 0 2", "1 0 1 0 0 2")

    def test_several_has_a_column_that_stands_by_the_recommended_factor_alone(self):
        self.turned_by("alphacc=0.85", "1 1 0 0 0 2", "0 1 0 0 0 2")

    def test_several_has_a_column_compressed_over_its_full_height(self):
        self.assertEqual(self.answers("several.txt")[9], "10 0 4313 169948995 0 0 0 0 2 2 2 0 2")

    def test_several_has_the_first_beam_typed_from_the_bottom(self):
        texts = [line.split() for line in (EXAMPLES / "several.txt").read_text().splitlines() if line and not line.startswith("#")]
        self.assertEqual(texts[11], texts[0][:7] + texts[0][:6:-1])
        records = [record for _, record, _ in second.list_answers(self.made("", EXAMPLES / "several.txt"))]
        self.assertEqual(records[11], records[0])

    def test_the_export_of_a_spreadsheet(self):
        self.assertEqual(self.answers("beams.csv"), self.answers("several.txt")[:10])
