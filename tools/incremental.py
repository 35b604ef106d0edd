"""Changed copies of a crate, checked over what `rt check` has proved of it, so that only what a change reaches is
checked again.

What `rt check` keeps of a crate, out/incremental, holds every checked module. Linked into a folder of its own for each
copy, `rattle check --incremental` takes from there whatever the change left as it was. For tries, not for the verdict:
`rt ci` tries each edit itself."""
import contextlib
import os
import re
import shutil
import subprocess
import tempfile
import time
from collections import namedtuple
from concurrent.futures import ThreadPoolExecutor

import edits
import rattle
from rattle import Failure

TARGET = os.path.join(edits.TOP, "target")
PATIENCE = 900  # seconds; the dearest crate checks in less than one minute
COUNTS = re.compile(r"(?m)^crate \S+: modules loaded=(\d+) checked=(\d+)$")
ERROR = re.compile(r"(?m)^(?:\./)?([^ \n]*): error")
NOTE = re.compile(r"(?m)^note: ([^ \n]*:[0-9]+:[0-9]+):")  # of a proof that rattle made itself
# as `rt ci` tells an edit that only takes away what a proof file names
TOLD = re.compile(r"(?m)^(?:note: )?\S+:\d+:\d+:.*")
UNFIT = re.compile(r"(?:note: )?(?:\./)?proofs/.*(?:has no field|is not in scope|has no `|was not admitted)")

REFUSED, UNFITTING, PROVED, NO_PROGRAM, NOT_TOLD = "refused", "unfit", "proved", "no program", "not told"
Outcome = namedtuple("Outcome", "verdict place seconds log")  # the place of the first error, and all that rattle said


@contextlib.contextmanager
def room(crate):
    """a folder that is removed afterwards, outside the checkout: `rt ci` refuses .rt and .antt files of no crate"""
    at = tempfile.mkdtemp(prefix="klarvesimo-%s-" % crate)
    try:
        yield at
    finally:
        shutil.rmtree(at, ignore_errors=True)


def link(one, other):
    """what was proved, by a link where that can be made. Rattle replaces such a file and never writes into it, so what
    is linked stays as it is"""
    if one.endswith(".oantt"):
        with contextlib.suppress(OSError):
            return os.link(one, other)
    return shutil.copy2(one, other)


def link_checked(crate, kept):
    """what was checked of the crate as an incremental folder"""
    shutil.copytree(os.path.join(edits.folder(crate), "out", "incremental"), kept, copy_function=link)


def is_unfit(log):
    """whether all that is refused stands in proof files that no longer fit the code: that speak of a goal, or of a step
    before one, that is gone"""
    told = TOLD.findall(log)
    told = [line for line in told if ": error" in line or line.startswith("note: ")] or told
    return bool(told) and all(UNFIT.match(line) for line in told)


def verdict(status, log):
    if status == 0:
        return PROVED
    if status == 1 and re.search("(?m)^logic=not-proved", log):
        return UNFITTING if is_unfit(log) else REFUSED
    return NO_PROGRAM if status == 1 else NOT_TOLD


def first_place(log):
    """where the first error stands, as `rt must-fail` tells it"""
    found = ERROR.search(log) or NOTE.search(log)
    return found[1] if found else "no place"


def check(crate, alter):
    """what comes of a copy of the crate that `alter` has changed, which is given the copy's folder"""
    with room(crate) as at:
        where, kept = os.path.join(at, "crate"), os.path.join(at, "checked")
        edits.copy_crate(crate, where)
        alter(where)
        link_checked(crate, kept)
        words, began = rattle.words("check", crate, edits.crates()[crate]) + ["--incremental", kept], time.monotonic()
        try:
            run = subprocess.run(words, cwd=where, stdin=subprocess.DEVNULL, stdout=subprocess.PIPE,
                                 stderr=subprocess.STDOUT, timeout=PATIENCE)
        except subprocess.TimeoutExpired:
            return Outcome(NOT_TOLD, "no place", PATIENCE, "no end in %d s" % PATIENCE)
        log = run.stdout.decode(errors="replace")
        return Outcome(verdict(run.returncode, log), first_place(log), time.monotonic() - began, log)


def show_loaded(crate):
    """the crate as it stands must be loaded whole, with nothing checked again"""
    outcome = check(crate, lambda where: None)
    counts = COUNTS.search(outcome.log)
    if outcome.verdict != PROVED or not counts or int(counts[1]) == 0 or int(counts[2]):
        said = counts[0] if counts else outcome.log.rstrip().split("\n")[-1]
        raise Failure("%s as it stands is not loaded whole from what was proved of it: %s" % (crate, said))


def prepare(crates, jobs):
    """the crates proved, and each shown to be loaded whole where nothing is changed"""
    for crate in crates:
        rattle.prove(crate)
    with ThreadPoolExecutor(jobs) as pool:
        list(pool.map(show_loaded, crates))
