"""Standard streams that are closed, full, cut or slow: every byte, or a message and a status that is not 0."""

import fcntl
import os
import resource
import subprocess
import threading

from running import (EXAMPLES, FIRST_LINE, PATIENCE, REFUSED, SECTION_A_BYTES, SECTION_A_LINE, SECTION_A_TEXT, CommandTest,
                     command, redirected, run)

UNBUFFERED = {**os.environ, "PYTHONUNBUFFERED": "1"}
PIPE_BYTES = 4_096
MANY_RECORDS = bytes(65_536)  # 16,384 records of map 0: a list of some 500,000 bytes
LIMIT = 1_000                 # bytes of a file that is cut


def small_pipe(blocking_end):
    """A pipe with little room, the end of the command not blocking."""
    reader, writer = os.pipe()
    fcntl.fcntl(writer, fcntl.F_SETPIPE_SZ, PIPE_BYTES)
    os.set_blocking({"read": reader, "write": writer}[blocking_end], False)
    return reader, writer


def limited():
    """As a full file system: files end at LIMIT bytes, after a write that was cut."""
    resource.setrlimit(resource.RLIMIT_CORE, (0, 0))
    resource.setrlimit(resource.RLIMIT_FSIZE, (LIMIT, LIMIT))


class StreamTest(CommandTest):
    """What is asked of a run that could not do its work."""

    def failed(self, answer, *parts):
        """A status that is not 0, no output, and a message with the parts."""
        status, output, message = answer
        self.assertNotEqual(status, 0)
        self.assertIn(output, (b"", None))
        self.says(message, *parts)

    def records(self, data=MANY_RECORDS):
        """A file of records."""
        return self.file("records", data)

    def text(self, lines=200):
        """A file of text whose records are longer than a pipe's or a file's room."""
        return self.file("sections.txt", SECTION_A_TEXT * lines)


class Output(StreamTest):
    """Standard output."""

    def test_a_full_device(self):
        for tool, given in (("check-list", self.records()), ("make-record", self.text()), ("show-record", self.records()),
                            ("sort-records", self.records()), ("make-record", "--help"), ("check-list", "--help"),
                            ("sort-records", "--help")):
            with self.subTest(tool=tool, given=given):
                self.failed(redirected(">/dev/full", tool, given), "written")

    def test_a_full_device_and_one_short_line(self):
        self.failed(redirected(">/dev/full", "check-list", "/dev/null"), "written")

    def test_a_full_device_unbuffered(self):
        with open("/dev/full", "wb") as full:
            self.failed(run("make-record", self.text(), stdout=full, env=UNBUFFERED), "No space left")

    def test_a_closed_stream(self):
        for tool, given in (("check-list", self.records()), ("make-record", self.text()), ("show-record", self.records()),
                            ("sort-records", self.records())):
            with self.subTest(tool=tool):
                self.failed(redirected(">&-", tool, given), "standard output is closed")

    def test_all_streams_closed(self):
        for tool in ("check-list", "make-record", "show-record", "sort-records"):
            self.failed(redirected("<&- >&- 2>&-", tool), "")

    def test_no_message_goes_to_another_file(self):
        prefix = self.folder / "lot-"
        self.failed(redirected(">&- 2>&-", "make-record", "--split", prefix, self.text()), "")
        status, _, _ = redirected("2>&-", "make-record", "--split", prefix, self.file("wrong.txt", "x\n"))
        self.assertEqual((status, list(self.folder.glob("lot-*"))), (1, []))

    def test_a_file_that_ends_early(self):
        for tool, given, env in (("check-list", self.records(), None), ("make-record", self.text(), None),
                                 ("make-record", self.text(), UNBUFFERED), ("show-record", self.records(), None),
                                 ("sort-records", self.records(), None)):
            with self.subTest(tool=tool, unbuffered=env is UNBUFFERED), open(self.folder / "cut", "wb") as cut:
                self.failed(run(tool, given, stdout=cut, env=env, preexec_fn=limited), "not whole")
                self.assertLessEqual(os.fstat(cut.fileno()).st_size, LIMIT)

    def test_split_files_that_end_early_are_not_kept(self):
        prefix = self.folder / "lot-"
        self.failed(run("make-record", "--split", prefix, self.text(), preexec_fn=limited), "lot-1", "File too large")
        self.assertEqual(list(self.folder.glob("lot-*")), [])

    def test_check_list_into_a_pipe_that_does_not_wait(self):
        reader, writer = small_pipe("write")
        try:
            self.failed(run("check-list", self.records(), stdout=writer), "could not be written whole")
        finally:
            os.close(reader)
            os.close(writer)

    def test_make_record_into_a_pipe_that_does_not_wait(self):
        reader, writer = small_pipe("write")
        with subprocess.Popen(command("make-record", self.text()), stdout=writer, env=UNBUFFERED) as process:
            os.close(writer)
            with open(reader, "rb") as pipe:
                self.assertEqual(pipe.read(), SECTION_A_BYTES * 200)
        self.assertEqual(process.returncode, 0)

    def test_a_reader_that_stops_is_no_fault(self):
        for tool, given in (("check-list", self.records()), ("make-record", self.text(1_000)), ("show-record", self.records()),
                            ("sort-records", self.records())):
            with subprocess.Popen(command(tool, given), stdout=subprocess.PIPE, stderr=subprocess.PIPE, pipesize=PIPE_BYTES) as process:
                process.stdout.readline(100)
                process.stdout.close()
                message = process.stderr.read()
            self.assertEqual((tool, process.returncode % 256 & 127, message), (tool, 13, b""))

    def test_head(self):
        words = ["sh", "-c", '"$0" "$1" | head -1', *command("check-list", self.records())]
        done = subprocess.run(words, capture_output=True, timeout=PATIENCE, check=False)
        self.assertEqual((done.stdout, done.stderr), (FIRST_LINE, b""))


class Input(StreamTest):
    """Standard input."""

    def test_a_directory(self):
        for tool in ("check-list", "make-record", "show-record", "sort-records"):
            with self.subTest(tool=tool):
                self.failed(redirected("</", tool), "directory")

    def test_a_directory_by_its_name(self):
        self.failed(run("check-list", "/"), "standard input could not be read")
        for tool in ("make-record", "sort-records"):
            self.failed(run(tool, "/"), "Is a directory")

    def test_a_closed_stream(self):
        for tool in ("check-list", "make-record", "sort-records"):
            with self.subTest(tool=tool):
                self.failed(redirected("<&-", tool), "standard input is closed")
        self.assertEqual(redirected("<&-", "show-record")[0], 1)

    def test_check_list_from_a_pipe_that_does_not_wait(self):
        reader, writer = small_pipe("read")
        try:
            self.failed(run("check-list", stdin=reader), "standard input could not be read")
        finally:
            os.close(reader)
            os.close(writer)

    def test_a_read_that_fails_after_some_bytes(self):
        reader, writer = small_pipe("read")
        os.write(writer, SECTION_A_BYTES)
        try:
            self.failed(run("check-list", stdin=reader), "standard input could not be read")
        finally:
            os.close(reader)
            os.close(writer)

    def test_make_record_from_a_pipe_that_does_not_wait(self):
        reader, writer = small_pipe("read")
        with subprocess.Popen(command("make-record"), stdin=reader, stdout=subprocess.PIPE) as process:
            os.close(reader)
            late = threading.Timer(0.3, lambda: (os.write(writer, SECTION_A_TEXT.encode()), os.close(writer)))
            late.start()
            self.assertEqual(process.stdout.read(), SECTION_A_BYTES)
            late.join()
        self.assertEqual(process.returncode, 0)

    def test_input_without_an_end(self):
        for tool in ("make-record", "show-record", "sort-records"):
            with self.subTest(tool=tool):
                status, _, message = redirected("</dev/zero", tool)
                self.assertEqual(status, 1)
                self.says(message, "67108864 bytes")
        status, text, message = redirected("</dev/zero", "check-list")
        self.assertEqual((status, text, message), (0, FIRST_LINE + b"0 26" + REFUSED, ""))

    def test_empty_input_is_no_fault(self):
        self.assertEqual(run("check-list", stdin=subprocess.DEVNULL), (0, FIRST_LINE, ""))
        self.assertEqual(run("check-list", given=b""), (0, FIRST_LINE, ""))


class Both(StreamTest):
    """A pipeline, and the one command in its place."""

    def test_the_pipeline(self):
        words = ["sh", "-c", '"$0" <"$1" | "$2"', *command("make-record", EXAMPLES / "section-a.txt"), *command("check-list")]
        done = subprocess.run(words, capture_output=True, timeout=PATIENCE, check=False)
        self.assertEqual((done.returncode, done.stdout, done.stderr), (0, FIRST_LINE + SECTION_A_LINE, b""))

    def test_a_wrong_text_is_not_an_empty_list(self):
        wrong = self.file("wrong.txt", SECTION_A_TEXT + "300 500 30\n")
        self.failed(run("check-list", "--text", wrong), "wrong.txt, line 2, column 4 (fyk)")

    def test_text_on_full_and_closed_devices(self):
        self.failed(redirected(">/dev/full", "check-list", "--text", self.text()), "could not be written whole")
        self.failed(redirected(">&-", "check-list", "--text", self.text()), "closed")
