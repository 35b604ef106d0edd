"""The kit's rattle, called as rt calls it, for what rt has no word for: a copy of a crate with a change, a crate that
crates.txt does not list, the module of a static library. Nothing of it may stand below the checkout, where `rt ci`
refuses links, and .rt and .antt files of no crate."""
import functools
import os
import re
import subprocess
import time

import edits

BEGUN, PROVED = re.compile(r"rt: chose --jobs \d+ for (\w+)"), "logic=proved "


class Failure(Exception):
    """what keeps a crate from being checked or built"""


def run(words, where, hear=lambda line: None):
    """a command in a folder, and what it says, line by line; all that it has said where it fails"""
    said = []
    try:
        with subprocess.Popen(words, cwd=where, stdin=subprocess.DEVNULL, stdout=subprocess.PIPE,
                              stderr=subprocess.STDOUT, encoding="utf-8", errors="replace") as command:
            for line in command.stdout:
                said.append(line)
                hear(line)
    except OSError as why:
        raise Failure("%s: %s" % (words[0], why)) from why
    if command.returncode:
        raise Failure("%s%s: status %d" % ("".join(said), " ".join(words[:2]), command.returncode))
    return "".join(said)


@functools.lru_cache(maxsize=None)
def kit():
    """the kit's folder: `rt doc` names a page in it"""
    return os.path.dirname(run(["rt", "doc"], edits.TOP).strip())


def library(crate):
    """where rt builds a crate of the repository"""
    return os.path.join(edits.folder(crate), "out", "rlib", crate + ".rlib")


def below(known):
    """crates and all that they stand on, each behind those that it knows"""
    crates, found = edits.crates(), []

    def visit(crate):
        if crate not in crates:
            raise Failure("crates.txt has no %s" % crate)
        if crate not in found:
            for other in crates[crate]:
                visit(other)
            found.append(crate)

    for crate in known:
        visit(crate)
    return found


def words(verb, name, known):
    """the command, in its folder, for a crate of that name that knows these crates, taken as they are built"""
    home, root = kit(), "src/lib.rt"
    said = [home + "/bin/rattle", verb, "--crate-name", name, root, "--extern", "std=%s/rlibs/std.rlib" % home]
    for crate in known:
        said += ["--extern", "%s=%s" % (crate, library(crate))]
    for folder in [home + "/rlibs"] + [os.path.dirname(library(crate)) for crate in below(known)]:
        said += ["-L", "dependency=" + folder]
    said += ["--antt-project", home + "/rattle/logic/antt-project.json", "--logic-built", home + "/logic_built"]
    return said + ["--links", name + "="] + ["--crate-type", "staticlib"] * (name in edits.statics())


def prove(crate, verb="check", tell=lambda words: None):
    """`rt check` of a crate, or `rt lib`: those below it are proved first and built, where they have changed"""
    now = []

    def hear(line):
        begun = BEGUN.match(line)
        if begun:
            now[:] = begun[1], time.monotonic()
            tell("proving " + begun[1])
        elif now and line.startswith(PROVED):
            tell("%s proved (%d s)" % (now[0], time.monotonic() - now[1]))

    run(["rt", verb], edits.folder(crate), hear)
