"""check-list: what it takes, where it can be called from, what a first build says, and how it ends."""

import os
import shutil
import stat
import subprocess

from running import (ACCIDENTAL_A_BYTES, ACCIDENTAL_A_LINE, ACCIDENTAL_A_TEXT, BOTTOM_UP_BYTES, BOTTOM_UP_TEXT, EXAMPLES, FIRST_LINE,
                     LINKED_A_TEXT, PATIENCE, REDUCED_A_BYTES, REDUCED_A_LINE, REDUCED_A_TEXT, REFUSED, SECTION_A_BYTES, SECTION_A_LINE,
                     SECTION_A_TEXT, TOP, TOP_DOWN_BYTES, TOP_DOWN_LINE, CommandTest, run, with_layers)

LIST_A = FIRST_LINE + SECTION_A_LINE

# A of other strengths: record, text, line, and the moment and shear resistance that it shows
ACCIDENTAL_A = (ACCIDENTAL_A_BYTES, ACCIDENTAL_A_TEXT, ACCIDENTAL_A_LINE, 300_000_000, 108_564)
REDUCED_A = (REDUCED_A_BYTES, REDUCED_A_TEXT, REDUCED_A_LINE, 251_755_182, 86_851)

# Stands in for the kit: prints as rt does, and leaves a program that does what the test wants.
RT = """#!/bin/sh
[ -d src ] || { echo 'rt: no crate is here'; exit 2; }
echo "$* ${PWD##*/}" >>../../called
echo 'rt: chose --jobs 2 for arith'
echo 'fn arith::both: proved'
echo 'crate arith: modules loaded=0 checked=33'
[ ! -f ../../broken ] || { echo 'logic=not-proved'; echo 'rt: the library arith did not build, so nothing above it was checked'; exit 1; }
echo 'logic=proved functions=4'
echo 'fn check_list::main: proved'
echo 'crate check_list: modules loaded=33 checked=54'
echo 'axioms libc: libc::read, libc::write (2 of the 128 declared)'
echo 'logic=proved functions=9 axioms=2'
echo 'rt: running out/check_list; to give it other input, run that file yourself'
mkdir -p out && cp ../../program out/check_list && chmod +x out/check_list
"""


class Taken(CommandTest):
    """Records and text, by name and by standard input."""

    def test_records_from_a_file_and_from_standard_input(self):
        path = self.file("a.rec", SECTION_A_BYTES)
        for arguments, given in (((path,), b""), ((), SECTION_A_BYTES), (("-",), SECTION_A_BYTES)):
            with self.subTest(arguments=arguments):
                self.assertEqual(run("check-list", *arguments, given=given), (0, LIST_A, ""))

    def test_text_does_both_steps(self):
        self.assertEqual(run("check-list", "--text", EXAMPLES / "section-a.txt"), (0, LIST_A, ""))
        self.assertEqual(run("check-list", "--text", "-", given=SECTION_A_TEXT), (0, LIST_A, ""))
        self.assertEqual(run("check-list", "--text", given=SECTION_A_TEXT), (0, LIST_A, ""))

    def test_text_with_links_reaches_the_sixth_verdict(self):
        for v, verdicts in ((80_000, b"0 0 0 0 0 0"), (222_308, b"0 0 1 0 0 0"), (222_309, b"0 0 1 0 0 1")):
            line = b"1 0 1358 257986051 86851 450 1500 " + verdicts + b"\n"
            self.assertEqual(run("check-list", "--text", given=LINKED_A_TEXT.replace(" 80000 ", f" {v} ")), (0, FIRST_LINE + line, ""))

    def test_text_with_links_that_are_refused(self):
        for n, links, number in (("0", "0/200", b"27"), ("0", "5001/200", b"27"), ("0", "101/24", b"28"), ("0", "101/1001", b"28"),
                                 ("1kN", "101/200", b"29")):
            with self.subTest(n=n, links=links):
                text = f"300 500 30 500 {n} 0 0 links={links} 450/1500"
                self.assertEqual(run("check-list", "--text", given=text), (0, FIRST_LINE + b"1 " + number + REFUSED, ""))

    def test_the_accidental_situation_and_an_alpha_cc_as_record_and_as_text(self):
        for record, text, line, _, _ in (ACCIDENTAL_A, REDUCED_A):
            for arguments, given in (((), record), (("--text",), text)):
                self.assertEqual(run("check-list", *arguments, given=given), (0, FIRST_LINE + line, ""))

    def test_text_of_these_reaches_its_resistances(self):
        for _, given, line, m, v in (ACCIDENTAL_A, REDUCED_A):
            for more, verdicts in ((0, b"0 0 0 0 0 2"), (1, b"1 0 1 0 0 2")):
                text = given.replace(" 200000000 80000 ", f" {m + more} {v + more} ")
                answered = FIRST_LINE + line.replace(b"0 0 0 0 0 2", verdicts)
                self.assertEqual(run("check-list", "--text", given=text), (0, answered, ""))

    def test_situations_and_alpha_ccs_that_are_refused_and_a_present_1_and_100(self):
        for given, last, line in ((ACCIDENTAL_A_BYTES, 0, b"1 32" + REFUSED), (ACCIDENTAL_A_BYTES, 1, SECTION_A_LINE),
                                  (ACCIDENTAL_A_BYTES, 3, b"1 32" + REFUSED), (REDUCED_A_BYTES, 0, b"1 34" + REFUSED),
                                  (REDUCED_A_BYTES, 79, b"1 34" + REFUSED), (REDUCED_A_BYTES, 100, SECTION_A_LINE),
                                  (REDUCED_A_BYTES, 101, b"1 34" + REFUSED)):
            self.assertEqual(run("check-list", given=given[:-1] + bytes([last])), (0, FIRST_LINE + line, ""))
        for given, word, others, number in ((ACCIDENTAL_A_TEXT, "accidental", ("0", "3", "-1"), b"32"),
                                            (REDUCED_A_TEXT, "0.85", ("0", "0.79", "1.01", "-0.85"), b"34")):
            for other in others:
                text = given.replace(word, other)
                self.assertEqual(run("check-list", "--text", given=text), (0, FIRST_LINE + b"1 " + number + REFUSED, ""))

    def test_text_has_its_layers_in_any_sequence(self):
        self.assertEqual(run("check-list", "--text", given=BOTTOM_UP_TEXT), (0, FIRST_LINE + TOP_DOWN_LINE, ""))

    def test_a_record_out_of_sequence_is_refused_and_the_list_goes_on(self):
        answered = FIRST_LINE + b"1 31" + REFUSED + b"2" + SECTION_A_LINE[1:]
        for record in (BOTTOM_UP_BYTES, with_layers((450, 800), (450, 700)), with_layers((50, 400), (450, 750), (449, 750))):
            self.assertEqual(run("check-list", given=record + SECTION_A_BYTES), (0, answered, ""))

    def test_equal_depths_by_rising_area_and_equal_layers_are_in_sequence(self):
        for layers in (((450, 700), (450, 800)), ((450, 750), (450, 750))):
            self.assertEqual(run("check-list", given=with_layers(*layers)), (0, LIST_A, ""))

    def test_what_sort_records_wrote_is_read(self):
        for record in (BOTTOM_UP_BYTES, TOP_DOWN_BYTES):
            self.assertEqual(run("check-list", given=run("sort-records", given=record)[1]), (0, FIRST_LINE + TOP_DOWN_LINE, ""))

    def test_bit_26_ends_the_list(self):
        spoiled = b"\4" + REDUCED_A_BYTES[1:]
        self.assertEqual(run("check-list", given=REDUCED_A_BYTES + spoiled + SECTION_A_BYTES),
                         (0, FIRST_LINE + REDUCED_A_LINE + b"2 21" + REFUSED, ""))

    def test_text_of_the_longest_input(self):
        status, text, message = run("check-list", "--text", given="- - - - - - -\n" * 16_384)
        self.assertEqual((status, text.count(b"\n"), message), (0, 16_385, ""))

    def test_text_with_more_records_than_the_program_takes(self):
        status, text, message = run("check-list", "--text", given=SECTION_A_TEXT * 1_093)
        self.assertEqual((status, text), (1, b""))
        self.says(message, "65580 bytes", "65536", "--split")

    def test_a_file_that_is_not_there(self):
        for arguments in (("no-such-file",), ("--text", "no-such-file")):
            status, text, message = run("check-list", *arguments)
            self.assertEqual((status, text), (1, b""))
            self.says(message, "no-such-file", "No such file")

    def test_text_in_place_of_records_gets_a_hint(self):
        path = EXAMPLES / "section-a.txt"
        with open(path, "rb") as file:
            runs = [run("check-list", stdin=file)]
        runs += [run("check-list", path), run("check-list", given=path.read_bytes()), run("check-list", given="\ufeffb;h")]
        for status, text, message in runs:
            self.assertEqual((status, text), (0, FIRST_LINE + b"1 21" + REFUSED))
            self.says(message, "looks like text", "--text", "make-record")

    def test_records_get_no_hint_and_lose_no_byte(self):
        with open(self.file("a.rec", SECTION_A_BYTES * 2), "rb") as file:
            file.seek(60)
            self.assertEqual(run("check-list", stdin=file), (0, LIST_A, ""))
        self.assertEqual(run("check-list", given=bytes(2))[1:], (FIRST_LINE + b"1 20" + REFUSED, ""))

    def test_a_note_about_units(self):
        status, _, message = run("check-list", "--text", given="300 500 30 500 0 200 80 450/1500")
        self.assertEqual(status, 0)
        self.says(message, "column 6 (M)", "200kNm")


class Called(CommandTest):
    """From wherever it is called."""

    def test_through_a_symbolic_link_and_from_another_folder(self):
        for tool, arguments in (("check-list", ["--text", EXAMPLES / "section-a.txt"]), ("make-record", [EXAMPLES / "section-a.txt"])):
            link, again = self.folder / tool, self.folder / "again"
            link.symlink_to(os.path.relpath(TOP / tool, self.folder))
            again.symlink_to(link)
            for path in (link, again):
                done = subprocess.run([path, *arguments], cwd=self.folder, capture_output=True, timeout=PATIENCE, check=False)
                self.assertEqual((done.returncode, done.stdout, done.stderr), run(tool, *arguments)[:2] + (b"",))
            again.unlink()

    def test_from_a_folder_that_is_gone(self):
        words = ["sh", "-c", 'mkdir "$1" && cd "$1" && rmdir "$1" && exec "$0" "$2"', TOP / "check-list", self.folder / "gone",
                 self.file("a.rec", SECTION_A_BYTES)]
        done = subprocess.run(words, capture_output=True, timeout=PATIENCE, check=False)
        self.assertEqual((done.returncode, done.stdout), (0, LIST_A))


class Built(CommandTest):
    """The first build, with a stand-in for the kit and in a copy of the commands."""

    def setUp(self):
        super().setUp()
        shutil.copytree(TOP / "tools", self.folder / "tools")
        shutil.copy(TOP / "check-list", self.folder)
        (self.folder / "crates" / "check_list" / "src").mkdir(parents=True)
        self.file("crates.txt", "arith:\ncheck_list: arith\n")
        self.file("program", "#!/bin/sh\necho list\n")
        for folder in ("bin", "plain"):
            (self.folder / folder).mkdir()
        self.executable("bin/rt", RT)
        for name in ("sh", "readlink", "python3"):
            (self.folder / "plain" / name).symlink_to(shutil.which(name))

    def executable(self, name, content):
        """A script of the copy."""
        path = self.file(name, content)
        path.chmod(path.stat().st_mode | stat.S_IXUSR)

    def list(self, kit=True):
        """One run of the copy, with the stand-in as its kit or with none."""
        path = f"{self.folder / 'bin'}:{os.environ['PATH']}" if kit else str(self.folder / "plain")
        done = subprocess.run([self.folder / "check-list"], env={**os.environ, "PATH": path}, cwd="/", stdin=subprocess.DEVNULL,
                              capture_output=True, timeout=PATIENCE, check=False)
        return done.returncode, done.stdout, done.stderr.decode()

    def test_one_line_a_crate_and_the_kits_log_in_a_file(self):
        status, text, message = self.list()
        self.assertEqual((status, text), (0, b"list\n"))
        lines = message.splitlines()
        self.says(lines[0], "minutes", "check-list.log")
        for line, crate in zip(lines[1:3], ("arith", "check_list")):
            self.assertRegex(line, rf"^check-list: {crate} proved \(\d+ s\)$")
        self.says(lines[3], "done in")
        self.assertEqual(len(lines), 4)
        self.assertIn("fn arith::both: proved", (self.folder / "target" / "check-list.log").read_text())

    def later(self, *place):
        """A time of this source after anything that was built."""
        path = self.folder.joinpath(*place)
        newer = (self.folder / "target" / "bin" / "check_list").stat().st_mtime + 10
        os.utime(path, (newer, newer))

    def test_it_is_built_once_and_again_when_a_source_is_newer(self):
        self.list()
        self.assertEqual(self.list(), (0, b"list\n", ""))
        for place in (("crates.txt",), ("crates", "check_list", "src")):
            self.later(*place)
            self.assertIn("proved", self.list()[2])
        self.assertEqual((self.folder / "called").read_text(), "run check_list\n" * 3)

    def test_what_the_kit_makes_is_no_source(self):
        self.list()
        self.later("crates", "check_list", "out", "check_list")
        self.assertEqual(self.list(), (0, b"list\n", ""))

    def test_a_program_that_rt_ci_left_is_taken(self):
        (self.folder / "crates" / "check_list" / "out").mkdir()
        self.executable("crates/check_list/out/check_list", "#!/bin/sh\necho left\n")
        for _ in range(2):
            self.assertEqual(self.list(kit=False), (0, b"left\n", ""))

    def test_a_failure_names_the_log(self):
        self.file("broken", "")
        status, text, message = self.list()
        self.assertEqual((status, text), (1, b""))
        self.says(message, "'rt run' in crates/check_list failed", str(self.folder / "target" / "check-list.log"))
        self.assertNotIn("proved", message.replace("proving", ""))
        self.assertIn("rt: the library arith did not build", (self.folder / "target" / "check-list.log").read_text())

    def test_no_kit(self):
        status, text, message = self.list(kit=False)
        self.assertEqual((status, text), (1, b""))
        self.says(message, "rt", "could not be started")

    def test_a_program_that_cannot_be_started(self):
        self.file("program", b"\x7fELF and no more")
        status, text, message = self.list()
        self.assertEqual((status, text), (1, b""))
        self.says(message, "could not be started")

    def test_a_program_that_says_something_or_is_ended(self):
        for program, said in (("echo list; echo it is cut >&2", "it is cut"), ("echo list; echo it is cut >&2; exit 1", "it is cut"),
                              ("echo list; kill -9 $$", "signal 9"), ("echo list; exit 3", "")):
            with self.subTest(program=program):
                for made in ("target", "crates/check_list/out"):
                    shutil.rmtree(self.folder / made, ignore_errors=True)
                self.file("program", f"#!/bin/sh\n{program}\n")
                status, text, message = self.list()
                self.assertEqual((status, text), (1, b"list\n"))
                self.says(message, said)

    def test_a_program_whose_reader_stopped(self):
        self.file("program", "#!/bin/sh\necho list\nexit 141\n")
        self.list()
        self.assertEqual(self.list(), (141, b"list\n", ""))
