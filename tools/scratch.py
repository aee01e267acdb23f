"""A repository in which one crate has an edit: what tools/wrong and tools/harmless share."""
import os
import shutil
import tempfile

ROOT = os.path.dirname(os.path.dirname(os.path.abspath(__file__)))


def replacements(path):
    """The pairs of an edit: (file, old, new)."""
    pairs, name, old = [], None, None
    for line in open(path, encoding="utf-8").read().split("\n"):
        if line.startswith("file: "):
            name = line[6:]
        elif line.startswith("old: "):
            old = line[5:]
        elif line.startswith("new:"):
            pairs.append((name, old, line[4:].removeprefix(" ")))
    return pairs


def put_on(home, pairs):
    """Puts an edit on a crate. As in the gate, each old text has to be there once."""
    for name, old, new in pairs:
        path = os.path.join(home, name)
        text = open(path, encoding="utf-8").read()
        if text.count(old) != 1:
            raise ValueError(f"the text occurs {text.count(old)} times in {name}: {old}")
        open(path, "w", encoding="utf-8").write(text.replace(old, new))


def repository(crate, pairs):
    """A new directory with a copy of this repository's crates, of which one has an edit; with no crate, none has. `rt` takes no crate by a link."""
    scratch = tempfile.mkdtemp(prefix="edited_")
    try:
        shutil.copy(os.path.join(ROOT, "crates.txt"), scratch)
        crates = os.path.join(scratch, "crates")
        shutil.copytree(os.path.join(ROOT, "crates"), crates, ignore=shutil.ignore_patterns("out", "must-fail", "wrong", "harmless"))
        if crate:
            put_on(os.path.join(crates, crate), pairs)
    except BaseException:
        shutil.rmtree(scratch)
        raise
    return scratch
