"""The crates of crates.txt, and their must-fail edits, read and applied as `rt ci` does: a `file:` line holds for the
`old:` and `new:` pairs after it, and the old text stands exactly once in the file as it is by then."""
import os
import re
import shutil

TOP = os.path.dirname(os.path.dirname(os.path.abspath(__file__)))
PARTS = ("src", "specs", "proofs")
FUNCTION = re.compile(r'(?m)^\s*(?:pub\s+)?(?:extern\s+"C"\s+)?fn\s+\w+')


class BadEdit(Exception):
    """why an edit cannot be applied"""


def lines():
    """the names before the colon, and those behind it, of each line of crates.txt"""
    with open(os.path.join(TOP, "crates.txt"), encoding="utf-8") as text:
        for line in text:
            own, colon, known = line.partition("#")[0].partition(":")
            if colon:
                yield own.split(), known.split()


def crates():
    """each crate with those that it knows, in the order of crates.txt"""
    return {own[0]: known for own, known in lines()}


def statics():
    """the crates that are static libraries"""
    return {own[0] for own, _ in lines() if "staticlib" in own}


def folder(crate):
    return os.path.join(TOP, "crates", crate)


def sources(crate):
    """the files of the crate's code, named from its folder"""
    found = []
    for at, _, names in os.walk(os.path.join(folder(crate), "src")):
        found += [os.path.join(at, name) for name in names if name.endswith(".rt")]
    return sorted(os.path.relpath(path, folder(crate)) for path in found)


def functions(crate):
    """how many functions the crate's code has"""
    count = 0
    for name in sources(crate):
        with open(os.path.join(folder(crate), name), encoding="utf-8") as code:
            count += len(FUNCTION.findall(code.read()))
    return count


def edits(crate):
    """the names of the crate's must-fail edits"""
    at = os.path.join(folder(crate), "must-fail")
    names = os.listdir(at) if os.path.isdir(at) else []
    return sorted(name[:-len(".edit")] for name in names if name.endswith(".edit") and not name.startswith("."))


def copy_crate(crate, where):
    """what a check reads of the crate, copied to a new folder"""
    for part in PARTS:
        if os.path.isdir(os.path.join(folder(crate), part)):
            shutil.copytree(os.path.join(folder(crate), part), os.path.join(where, part), symlinks=True)
    if any(os.path.islink(os.path.join(at, name)) for at, below, names in os.walk(where) for name in below + names):
        raise BadEdit("the crate holds a symbolic link")


def replacements(path):
    """file, old and new text of each pair of an edit; lines that are none of the three are passed over"""
    name, old = b"", b""
    with open(path, "rb") as edit:
        for line in edit.read().split(b"\n"):
            if line.startswith(b"file: "):
                name = line[len(b"file: "):]
            elif line.startswith(b"old: "):
                old = line[len(b"old: "):]
            elif line.startswith(b"new:"):
                new = line[len(b"new:"):]
                yield name.decode(), old, new[1:] if new.startswith(b" ") else new
                old = b""


def replace(where, name, old, new):
    """one pair, in the copy of the crate at `where`"""
    if not name or name.startswith("/") or ".." in name.split("/"):
        raise BadEdit("a 'file:' line leads out of the crate: '%s'" % name)
    if not name.startswith(tuple(part + "/" for part in PARTS)):
        raise BadEdit("a 'file:' line names no file under src/, specs/ or proofs/: %s" % name)
    path = os.path.join(where, name)
    if not os.path.isfile(path):
        raise BadEdit("a 'file:' line names no file of the crate: %s" % name)
    with open(path, "rb") as kept:
        text = kept.read()
    if text and not text.endswith(b"\n"):
        text += b"\n"
    count = text.count(old) if old else 0
    if count != 1:
        how = "more than once in" if count else "not in"
        raise BadEdit("an 'old:' text is %s %s: '%s'" % (how, name, old.decode(errors="replace")))
    with open(path, "wb") as kept:
        kept.write(text.replace(old, new))


def apply_edit(crate, edit, where):
    """the edit of that name, in the copy of the crate at `where`"""
    path = os.path.join(folder(crate), "must-fail", edit + ".edit")
    if not os.path.isfile(path):
        raise BadEdit("there is no crates/%s/must-fail/%s.edit" % (crate, edit))
    pairs = list(replacements(path))
    if not pairs:
        raise BadEdit("it has no 'old:' and 'new:' pair")
    if all(old == new for _, old, new in pairs):
        raise BadEdit("it changes nothing")
    for pair in pairs:
        replace(where, *pair)
