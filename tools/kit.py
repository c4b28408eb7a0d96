"""What the Rattle kit proves and builds: a line for each crate on standard error, the kit's own words in a log."""

import fcntl
import os
import shutil
import subprocess
import time
from pathlib import Path

from streams import Complaint, say

TOP = Path(__file__).resolve().parent.parent
CRATES = TOP / "crates"
TARGET = TOP / "target"
PROGRAM = TARGET / "bin" / "check_list"
BUILT = CRATES / "check_list" / "out" / "check_list"  # where 'rt run' and 'rt ci' leave it, once it is proved


def sources():
    """What the kit reads: the list of crates, and of each crate these folders with all that they hold; never what it makes, in out/."""
    yield TOP / "crates.txt"
    for crate in CRATES.iterdir():
        for folder in (crate / "src", crate / "specs", crate / "proofs"):
            yield folder
            yield from folder.rglob("*")


def newest_source():
    """When a source was last changed, added or removed."""
    return max((path.stat().st_mtime for path in sources() if path.exists()), default=0)


def is_current(product):
    """The product is there, and no source is newer."""
    return os.access(product, os.X_OK) and newest_source() <= product.stat().st_mtime


def opened(path):
    """A file of the build, for writing."""
    try:
        path.parent.mkdir(exist_ok=True)
        return open(path, "wb", buffering=0)
    except OSError as error:
        raise Complaint(f"{error.filename}: {error.strerror}; expected a folder to build in") from None


def follow(command, process, log):
    """Keep every line of the kit, and say of each crate that it is proved, and its time."""
    name, began = None, time.monotonic()
    for line in process.stdout:
        log.write(line)
        if line.startswith(b"crate "):  # the last lines on a crate: 'crate NAME: ..', and then 'logic=proved ..' if it is
            name = line[len(b"crate "):].split(b":")[0].decode("utf-8", "replace")
        elif line.startswith(b"logic=") and name:
            now = time.monotonic()
            if line.startswith(b"logic=proved "):
                say(command, f"{name} proved ({now - began:.0f} s)")
            name, began = None, now


def run_kit(command, crate, word, about):
    """rt with this word in a crate's folder; a complaint that names the log where it fails."""
    path = TARGET / f"{command}.log"
    say(command, f"{about}; the kit's log is {path}")
    began = time.monotonic()
    with opened(path) as log:
        try:
            process = subprocess.Popen(["rt", word], cwd=CRATES / crate, stdin=subprocess.DEVNULL, stdout=subprocess.PIPE,
                                       stderr=subprocess.STDOUT)
        except OSError as error:
            raise Complaint(f"rt, the Rattle kit's command, could not be started: {error.strerror}") from None
        with process:
            follow(command, process, log)
    if process.returncode:
        raise Complaint(f"'rt {word}' in crates/{crate} failed; {path} says why")
    say(command, f"done in {time.monotonic() - began:.0f} s")


def put(product, place, when):
    """A copy of what the kit built, which stays while the kit builds anew; made of sources that were there at this time."""
    new = place.with_name(f"{place.name}.new")
    try:
        place.parent.mkdir(parents=True, exist_ok=True)
        shutil.copy(product, new)
        os.utime(new, (when, when))
        os.replace(new, place)
    except OSError as error:
        raise Complaint(f"{error.filename}: {error.strerror}; expected room in {TARGET} for what was built") from None


def list_program(command):
    """The list program, proved and built where that has not been done since the sources last changed."""
    if is_current(PROGRAM):
        return PROGRAM
    with opened(TARGET / f"{command}.lock") as lock:
        fcntl.flock(lock, fcntl.LOCK_EX)  # one build at a time; it may be done when this one's turn comes
        if not is_current(PROGRAM):
            if is_current(BUILT):
                when = BUILT.stat().st_mtime
            else:
                when = time.time()
                run_kit(command, "check_list", "run", "proving and building the list program, once, which takes minutes")
            put(BUILT, PROGRAM, when)
    return PROGRAM
