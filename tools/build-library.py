"""Proves the engine and builds it for C: target/lib/libsalwoerk.a and target/lib/libsalwoerk.so.

include/salwoerk.h declares what they hold. A C program is linked with -lsalwoerk -L target/lib, or with the
archive itself; gcc makes the shared library from it.
"""

import os
import subprocess
import time

import kit
import streams
from streams import Complaint

COMMAND = "build-library"
ARCHIVE = kit.CRATES / "engine" / "out" / "libengine.a"  # as the kit names it, after the crate
FOLDER = kit.TARGET / "lib"
LIBRARY, SHARED = FOLDER / "libsalwoerk.a", FOLDER / "libsalwoerk.so"


def link():
    """The shared library: all of the archive."""
    words = ["gcc", "-shared", "-o", f"{SHARED}.new", "-Wl,-soname,libsalwoerk.so",
             "-Wl,--whole-archive", str(LIBRARY), "-Wl,--no-whole-archive"]
    try:
        ended = subprocess.run(words, stdin=subprocess.DEVNULL, check=False).returncode
    except OSError as error:
        raise Complaint(f"gcc could not be started: {error.strerror}") from None
    if ended:
        raise Complaint("gcc could not link the shared library")
    os.replace(f"{SHARED}.new", SHARED)


def main():
    """Both libraries, and where they are."""
    streams.Arguments(COMMAND, __doc__).parse_args()
    try:
        when = time.time()
        kit.run_kit(COMMAND, "engine", "lib", "proving and building the engine, which takes minutes, less where crates are proved already")
        kit.put(ARCHIVE, LIBRARY, when)
        link()
    except OSError as error:
        raise Complaint(f"{error.filename}: {error.strerror}") from None
    streams.write_output(f"{LIBRARY}\n{SHARED}\n".encode())
    return 0


if __name__ == "__main__":
    streams.run(COMMAND, main)
