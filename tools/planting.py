"""Mistakes that are planted on purpose, one at a time, in a copy of the repository: what the plant-* tools share."""

import shutil
import subprocess
from contextlib import contextmanager
from pathlib import Path

REPOSITORY = Path(__file__).resolve().parent.parent


class TableError(Exception):
    """A plant that cannot be made as its table has it."""


@contextmanager
def planted(folder, edits):
    """Makes edits, each (file, old, new) of a text that stands once in its file, and takes them out again."""
    before = {file: (folder / file).read_text() for file, _, _ in edits}
    after = dict(before)
    for file, old, new in edits:
        if after[file].count(old) != 1:
            raise TableError(f"stands {after[file].count(old)} times in {file}: {old}")
        after[file] = after[file].replace(old, new)
    try:
        for file, text in after.items():
            (folder / file).write_text(text)
        yield
    finally:
        for file, text in before.items():
            (folder / file).write_text(text)


def copy_crate(name, folder):
    """Copies a crate into a repository's folder, with what is known of its proofs, without the edits that must be refused."""
    shutil.copytree(REPOSITORY / "crates" / name, folder / "crates" / name, ignore=shutil.ignore_patterns("must-fail"))


class Check:
    """What `rt check` says of a crate of the repository in the folder, and of those below it that have changed."""

    def __init__(self, folder, crate):
        run = subprocess.run(["rt", "check", "--jobs", "1"], cwd=folder / "crates" / crate, stdout=subprocess.PIPE, stderr=subprocess.STDOUT, text=True)
        self.output = run.stdout
        self.proved = run.returncode == 0
        # nothing above a crate that is not proved is checked
        self.reached = run.returncode in (0, 1) and "nothing above it was checked" not in run.stdout


class Run:
    """What `rt run` says of a program of the repository in the folder, given its stored input; and whether it writes its stored output."""

    def __init__(self, folder, program):
        crate = folder / "crates" / program
        given, wanted = (crate / name for name in ("stdin", "stdout"))
        text = given.read_bytes() if given.exists() else b""
        run = subprocess.run(["rt", "run", "--jobs", "1"], cwd=crate, input=text, stdout=subprocess.PIPE, stderr=subprocess.PIPE)
        self.output = run.stderr.decode(errors="replace")
        self.proved = f"rt: running out/{program};" in self.output
        self.as_stored = run.returncode == 0 and run.stdout == (wanted.read_bytes() if wanted.exists() else b"")


def chosen(plants, labels):
    """The plants with these labels, or all where there are no labels; none where a label is unknown."""
    unknown = set(labels) - {plant.label for plant in plants}
    if unknown:
        print(f"no such plant: {', '.join(sorted(unknown))}")
        return []
    return [plant for plant in plants if not labels or plant.label in labels]
