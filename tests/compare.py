#!/usr/bin/env python3
"""Compares the engine with the second implementation, second.py.

    tests/compare.py PROGRAM [--library LIB.so] [--seed S] [--records N]

PROGRAM is the check list program: records on standard input, the list on
standard output. LIB.so is the engine as a shared object; without --library
that part is left out, and what it assumes stands at the top of library.py.
Beside the fixed records there are N random ones and as many columns, most of
them with a depth beyond 10h (02, request 11); some of all these once more with
their layers in any sequence (request 6), or reached by a trial of a layer
(request 9), of which layer_trials.py has others.

Every difference is printed with its record in hexadecimal and both answers.
The last line is 'N passed, M failed'; the exit status is 1 on a failure.
"""

import argparse
import os
import random
import subprocess
import sys
import tempfile
import threading
import time
from concurrent.futures import ProcessPoolExecutor, ThreadPoolExecutor
from concurrent.futures.process import BrokenProcessPool

sys.dont_write_bytecode = True

import damaged
import library
import sampling
import second
from met import LIBRARY_REFUSALS, LIST_REFUSALS
from damaged import Run
from samples import all_samples, record
from tally import Tally, check_accuracy, check_stated

PATIENCE = 20         # seconds for one run of the program
PIPE_PAUSE = 0.0005   # seconds between two pieces of a slow input
DAMAGED_RUNS = 80     # runs of records damaged at random
SEQUENCE_RUNS = 80    # runs of records in any sequence


# --- running the list program -----------------------------------------------


def feed(process, data, chunk, pause):
    """Write standard input piece by piece, then close it."""
    try:
        for start in range(0, len(data), chunk):
            process.stdin.write(data[start:start + chunk])
            time.sleep(pause)
    except BrokenPipeError:
        pass  # a program that has seen enough may stop reading
    process.stdin.close()


def run_program(program, run):
    """Standard output, standard error and exit status of one run, delivered as it asks.

    What it writes goes to files, so that neither side waits for the other; a
    program that does not end in time is ended and counts as a failure.
    """
    chunk, pause = (run.chunk, PIPE_PAUSE) if run.chunk else (len(run.data) or 1, 0)
    with tempfile.TemporaryFile() as text, tempfile.TemporaryFile() as errors:
        with subprocess.Popen([program], bufsize=0, stdin=subprocess.PIPE,
                              stdout=text, stderr=errors) as process:
            timer = threading.Timer(PATIENCE, process.kill)
            timer.start()
            feed(process, run.data, chunk, pause)
            status = process.wait()
            timer.cancel()
        text.seek(0)
        errors.seek(0)
        return text.read(), errors.read(), status


# --- comparing its list -----------------------------------------------------


def compare_list(tally, run, answers, output):
    """The header, then the line of each record, then that there is no more."""
    lines = output.decode("ascii", "replace").splitlines(keepends=True)
    body = lines[1:]
    tally.compare(f"{run.label}: header", "", [second.HEADER], lines[:1])
    for place, (number, subject, report) in enumerate(answers):
        got = body[place] if place < len(body) else "(no line)"
        tally.compare(f"{run.label}: record {number}", subject.hex(),
                      second.list_line(number, report), got)
    tally.compare(f"{run.label}: number of lines", run.data[:400].hex(),
                  len(answers), len(body))


def compare_run(tally, run, output, said, status):
    """One run against the second implementation and the refusals 01 states."""
    answers = list(second.list_answers(run.data))
    for _, subject, report in answers:
        tally.coverage.note(report, subject)
    if run.refusals is not None:
        tally.compare(f"{run.label}: second.py beside the paper", run.data[:400].hex(),
                      run.refusals, tuple(report.refusal for _, _, report in answers))
    compare_list(tally, run, answers, output)
    tally.require(f"{run.label}: ended by signal {-status}", status >= 0)
    tally.compare(f"{run.label}: standard error", run.data[:400].hex(), b"", said)
    return answers


def compare_runs(tally, program, runs):
    """All runs, several programs at a time; yields the answers of each."""
    runs = list(runs)
    with ThreadPoolExecutor(max_workers=os.cpu_count()) as pool:
        outputs = pool.map(lambda run: run_program(program, run), runs)
        for run, ended in zip(runs, outputs):
            yield compare_run(tally, run, *ended)


def joined(label, samples, encode):
    """Runs of as many whole records as the program's buffer holds."""
    data, stated = b"", []
    for sample in samples:
        piece = encode(sample.section, sample.load)
        if len(data) + len(piece) > second.INPUT_ROOM:
            yield Run(label, data, None if None in stated else tuple(stated))
            data, stated = b"", []
        data += piece
        stated.append(sample.refusal)
    yield Run(label, data, None if None in stated else tuple(stated))


def inspect(tally, rng, answers):
    """Where N and the accepted records stand, and the accuracy of what their lines show."""
    for _, subject, report in answers:
        if report.refusal in (0, *second.FACE_TESTS):
            _, _, section, load = second.read_record(subject)
            tally.coverage.note_axial_turns(section, load)
            if report.refusal == 0:
                tally.coverage.note_turns(section, load, report)
                check_accuracy(tally, rng, section, load, report.u, report.mrd, second.as_compressed(section, load.m))


def compare_stated(tally, samples):
    """second.py beside the paper, for the links that were meant to turn verdict six or to tie."""
    for sample in samples:
        if sample.sixth is not None or sample.cotangent is not None:
            check_stated(tally, sample, second.check(sample.section, sample.load))


def compare_program(tally, rng, program, samples):
    """The whole comparison of the list program."""
    def anyhow(section, load):
        """One of the records that mean the same."""
        return sampling.any_record(rng, section, load)

    compare_stated(tally, [*all_samples(), *samples])
    whole = [*joined("boundary", all_samples(), record), *joined("random", samples, anyhow)]
    for answers in compare_runs(tally, program, whole):
        inspect(tally, rng, answers)
    broken = [*damaged.all_runs(), *sampling.damaged_runs(rng, samples, DAMAGED_RUNS),
              *sampling.sequence_runs(rng, samples, SEQUENCE_RUNS)]
    for _ in compare_runs(tally, program, broken):
        pass  # a record that is damaged, or was moved about, stands nowhere in particular


# --- the library ------------------------------------------------------------


def library_counted(tally, rng, path, samples):
    """The tally with the library's comparisons; differences are printed at once."""
    sys.stdout.reconfigure(line_buffering=True)
    library.compare_library(tally, rng, path, samples, damaged.all_runs())
    return tally


def compare_library(tally, rng, path, samples):
    """In a process of its own: a library that crashes is a failure, not the end."""
    sys.stdout.flush()
    with ProcessPoolExecutor(max_workers=1) as pool:
        try:
            return pool.submit(library_counted, tally, rng, path, samples).result()
        except BrokenProcessPool:
            tally.require("the library ended its process", False)
            return tally


# --- the command ------------------------------------------------------------


def arguments():
    """The command line; a fresh seed where none is given."""
    parser = argparse.ArgumentParser(description=__doc__.split("\n", 1)[0])
    parser.add_argument("program", metavar="PROGRAM", type=os.path.abspath)
    parser.add_argument("--library", metavar="LIB.so", type=os.path.abspath)
    parser.add_argument("--seed", type=int, default=random.SystemRandom().randrange(10**9))
    parser.add_argument("--records", type=int, default=3_000)
    given = parser.parse_args()
    if not os.access(given.program, os.X_OK):
        parser.error(f"{given.program} is no program")
    if given.records < 1:
        parser.error("at least one random record is needed")
    return given


def main():
    """Compare, print what was met, and count."""
    given = arguments()
    print(f"seed {given.seed}, {given.records} random records and as many columns")
    rng = random.Random(given.seed)
    tally = Tally()
    samples = list(sampling.random_samples(rng, given.records))
    compare_program(tally, rng, given.program, samples)
    refusals = LIST_REFUSALS
    if given.library:
        tally = compare_library(tally, rng, given.library, samples)
        refusals += LIBRARY_REFUSALS
    for line in tally.coverage.table():
        print(line)
    for name in tally.coverage.never_met(refusals):
        tally.require(f"never met: {name}", False)
    print(f"{tally.passed} passed, {tally.failed} failed")
    return 1 if tally.failed else 0


if __name__ == "__main__":
    sys.exit(main())
