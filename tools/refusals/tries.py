"""What the prover says of a crate with some wrong answers in it. `rt ci` tries whole edits, and says of each its first error alone."""

import os
import shutil
from pathlib import Path
from tempfile import TemporaryDirectory

import kit

from .edits import apply
from .kept import kept, of_crates

NOT_PROVED = "logic=not-proved"


class Tries:
    """The tries of one crate. Each begins with what a check of the crate as it is has proved, where that is at hand."""

    def __init__(self, root, crate):
        self.root, self.crate = root, crate
        self.room = TemporaryDirectory()
        self.seed = None

    def __enter__(self):
        return self

    def __exit__(self, *_):
        self.room.cleanup()

    def log(self, answers):
        """What is said of the crate with these answers."""
        changes = [c for a in answers for c in a.changes]
        return kept(lambda: self.check(answers), "log", of_crates(self.root, [self.crate]), changes)

    def check(self, answers):
        self.begin()
        with TemporaryDirectory(dir=self.room.name) as folder:
            folder = Path(folder)
            copy_parts(self.root, self.crate, folder)
            apply(folder, answers)
            copy_proved(self.seed, folder / "proved")
            said = kit.rattle("check", self.root, self.crate, "--incremental", folder / "proved", at=folder).stdout
        if NOT_PROVED not in said and "logic=proved" not in said:
            raise kit.Failed("the prover gave no verdict: " + brief(said))
        return said

    def begin(self):
        """Proves the crate as it is: a refusal says something only of a crate that is proved."""
        if self.seed:
            return
        kit.build(self.root, [c for c in kit.with_dependencies(self.root, [self.crate]) if c != self.crate])
        folder = Path(self.room.name) / "as_it_is"
        copy_parts(self.root, self.crate, folder)
        copy_proved(self.root / "crates" / self.crate / "out" / "incremental", folder / "proved")
        said = kit.rattle("check", self.root, self.crate, "--incremental", folder / "proved", at=folder)
        if said.returncode:
            raise kit.Failed("the crate is not proved as it is")
        self.seed = folder / "proved"

    def log_above(self, edit):
        """What is said of the crate over a lower one with a wrong definition; nothing where the lower one is not proved any more."""
        changes = [c for a in edit.answers for c in a.changes]
        return kept(lambda: self.check_above(edit), "above", of_crates(self.root, [self.crate]), edit.changed, changes)

    def check_above(self, edit):
        listed, rlibs = kit.dependencies(self.root), {}
        kit.build(self.root, [c for c in listed if c in listed[self.crate]])
        with TemporaryDirectory(dir=self.room.name) as folder:
            folder = Path(folder)
            # the lower one with its edit, and over it what stands between the two
            for crate in [c for c in listed if c in listed[self.crate] and edit.changed in (c, *listed[c])]:
                copy_parts(self.root, crate, folder / crate)
                if crate == edit.changed:
                    apply(folder / crate, edit.answers)
                made = folder / crate / "out" / f"{crate}.rlib"
                made.parent.mkdir()
                if kit.rattle("build", self.root, crate, "-o", made, at=folder / crate, rlibs=rlibs).returncode:
                    return ""
                rlibs[crate] = made
            copy_parts(self.root, self.crate, folder / self.crate)
            return kit.rattle("check", self.root, self.crate, at=folder / self.crate, rlibs=rlibs).stdout


def copy_parts(root, crate, to):
    for part in kit.PARTS:
        source = root / "crates" / crate / part
        if source.is_dir():
            shutil.copytree(source, to / part)


def copy_proved(source, to):
    """Copies what a check kept: a later one replaces its files, and writes into none."""
    if not source.is_dir():
        to.mkdir(parents=True)
        return
    try:
        shutil.copytree(source, to, copy_function=link_or_copy)
    except (OSError, shutil.Error):
        # (a check that runs meanwhile changes it)
        shutil.rmtree(to, ignore_errors=True)
        to.mkdir(parents=True)


def link_or_copy(one, other):
    try:
        if one.endswith(".oantt"):
            return os.link(one, other)
    except OSError:
        pass
    return shutil.copy2(one, other)


def brief(said):
    lines = [line.strip() for line in said.splitlines() if line.strip()]
    return "; ".join(lines[:4])
