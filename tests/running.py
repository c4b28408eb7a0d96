"""What the tests of the commands share: how a command is run, and section A in text and bytes: plain, with links, accidental, with αcc,
with other layers."""

import struct
import subprocess
import sys
import tempfile
import unittest
from pathlib import Path

sys.dont_write_bytecode = True

TOP = Path(__file__).resolve().parent.parent
EXAMPLES = TOP / "examples"
PATIENCE = 60  # seconds for one command
FIRST_LINE = b"rec ref u mrd vrd dm as v1 v2 v3 v4 v5 v6\n"
SECTION_A_TEXT = "300 500 30 500 0 200000000 80000 450/1500\n"
SECTION_A_LINE = b"1 0 1358 257986051 86851 450 1500 0 0 0 0 0 2\n"
REFUSED = b" 0 0 0 0 0 2 2 2 2 2 2\n"  # of a line, after number and refusal

# 01: "Input of 60 bytes, hexadecimal map 0000016F, fields 300, 500, 30, 500,
# M 200,000,000, V 80,000, one layer 450 and 1,500", written out by hand
SECTION_A_BYTES = bytes.fromhex(
    "0000016F"
    "000000000000012C"  # b 300
    "00000000000001F4"  # h 500
    "000000000000001E"  # fck 30
    "00000000000001F4"  # fyk 500
    "000000000BEBC200"  # M 200,000,000
    "0000000000013880"  # V 80,000
    "000001C2" "000005DC")  # layer: 450 and 1,500

# The same with links of 101 mm² every 200 mm: bit 7 stands, and its field lies between V and the layer
LINKED_A_TEXT = "300 500 30 500 0 200000000 80000 links=101/200 450/1500\n"
LINKED_A_BYTES = bytes.fromhex("000001EF") + SECTION_A_BYTES[4:52] + bytes.fromhex("00000065" "000000C8") + SECTION_A_BYTES[52:]

# The same without links in the accidental situation: bit 24 stands, and its field follows the layer
ACCIDENTAL_A_TEXT = "300 500 30 500 0 200000000 80000 situation=accidental 450/1500\n"
ACCIDENTAL_A_BYTES = bytes.fromhex("0100016F") + SECTION_A_BYTES[4:] + bytes.fromhex("0000000000000002")
ACCIDENTAL_A_LINE = b"1 0 1250 300000000 108564 450 1500 0 0 0 0 0 2\n"

# The same in the persistent situation with αcc 0.85: bit 25 stands, and its field follows the layer
REDUCED_A_TEXT = "300 500 30 500 0 200000000 80000 alphacc=0.85 450/1500\n"
REDUCED_A_BYTES = bytes.fromhex("0200016F") + SECTION_A_BYTES[4:] + bytes.fromhex("0000000000000055")
REDUCED_A_LINE = b"1 0 1598 251755182 86851 450 1500 0 0 0 0 0 2\n"


def with_layers(*layers):
    """The record of section A with these layers in place of its own, as they stand: (depth, area) each."""
    bit_map = 0x6F | sum(1 << 8 + place for place in range(len(layers)))
    return struct.pack(">I", bit_map) + SECTION_A_BYTES[4:52] + b"".join(struct.pack(">II", *layer) for layer in layers)


# The same with αcc 1 and a layer at the top too: by rising depth, as records have their layers, and from the bottom up
TOP_DOWN_TEXT = "300 500 30 500 0 200000000 80000 50/400 450/1500\n"
TOP_DOWN_BYTES = with_layers((50, 400), (450, 1_500))
TOP_DOWN_LINE = b"1 0 1052 264809313 86851 450 1500 0 0 0 0 0 2\n"
BOTTOM_UP_TEXT = "300 500 30 500 0 200000000 80000 450/1500 50/400\n"
BOTTOM_UP_BYTES = with_layers((450, 1_500), (50, 400))


def command(tool, *arguments):
    """The words that start a command of the repository."""
    return [str(TOP / tool), *map(str, arguments)]


def run(tool, *arguments, given=b"", **how):
    """Exit status, standard output and messages of one run; `how` goes to subprocess."""
    given = given.encode() if isinstance(given, str) else given
    if "stdin" not in how:
        how["input"] = given
    for stream in ("stdout", "stderr"):
        how.setdefault(stream, subprocess.PIPE)
    done = subprocess.run(command(tool, *arguments), timeout=PATIENCE, check=False, **how)
    return done.returncode, done.stdout, (done.stderr or b"").decode()


def redirected(redirection, tool, *arguments):
    """The same with a redirection of the shell, such as '>&-'."""
    words = ["sh", "-c", f'exec "$0" "$@" {redirection}', *command(tool, *arguments)]
    done = subprocess.run(words, capture_output=True, stdin=subprocess.DEVNULL, timeout=PATIENCE, check=False)
    return done.returncode, done.stdout, done.stderr.decode()


class CommandTest(unittest.TestCase):
    """A folder for the files of a test, and what is asked of every message."""

    def setUp(self):
        folder = tempfile.TemporaryDirectory()
        self.addCleanup(folder.cleanup)
        self.folder = Path(folder.name)

    def file(self, name, content):
        """A file of the test's folder."""
        path = self.folder / name
        path.write_bytes(content.encode() if isinstance(content, str) else content)
        return path

    def says(self, message, *parts):
        """The message has the parts, and is no traceback and no control character."""
        for part in parts:
            self.assertIn(part, message)
        self.assertNotIn("Traceback", message)
        self.assertTrue(all(sign.isprintable() or sign == "\n" for sign in message), ascii(message))


def main():
    """Runs every test_*.py of this folder and counts."""
    here = str(Path(__file__).resolve().parent)
    result = unittest.TextTestRunner(stream=sys.stdout).run(unittest.TestLoader().discover(here))
    wrong = result.failures + result.errors + result.skipped
    bad = {getattr(test, "test_case", test).id() for test, _ in wrong}  # a test with several wrong parts counts once
    print(f"{result.testsRun - len(bad)} passed, {len(bad)} failed", flush=True)
    return 1 if bad else 0


if __name__ == "__main__":
    sys.exit(main())
