"""The edits of a repository: files of wrong answers, and a crate with some of them in it.

A wrong answer is
    wrong: NAME
    # what is wrong
    refused: PLACE [DECLARATION]    once or more: the file or folder under proofs/ that must refuse it
    shown: EXPRESSION               of code: lines of Rattle that answer true of the crate, and not with this answer in it
    file: FILE                      holds for what follows, also in the next wrong answer
    old: TEXT
    new: TEXT
"""

import re
from dataclasses import dataclass, field
from pathlib import Path


class BadEdit(Exception):
    pass


@dataclass
class Place:
    """Where the prover must refuse a wrong answer: in proofs/FILE, in a declaration or anywhere."""

    line: int
    file: str
    declaration: str = ""

    def __str__(self):
        return f"proofs/{self.file}" + (f", {self.declaration}" if self.declaration else "")


@dataclass
class Change:
    file: str
    old: str
    new: str


@dataclass
class Answer:
    name: str
    line: int
    places: list = field(default_factory=list)
    shown: list = field(default_factory=list)
    changes: list = field(default_factory=list)

    def is_of_code(self):
        return all(c.file.startswith("src/") for c in self.changes)


@dataclass
class Edit:
    path: Path
    # the crate whose prover refuses it, and the one that is changed
    crate: str
    changed: str
    answers: list

    @property
    def label(self):
        return self.path.stem


def edits_of(root):
    """All edits: crates/CRATE/must-fail/*.edit, and crates/CRATE/above/LOWER/*.edit, which change the lower crate."""
    for path in sorted(root.glob("crates/*/must-fail/*.edit")):
        yield read_edit(path, path.parts[-3], path.parts[-3])
    for path in sorted(root.glob("crates/*/above/*/*.edit")):
        yield read_edit(path, path.parts[-4], path.parts[-2])


def read_edit(path, crate, changed):
    answers, file, old = [], "", None
    for number, line in enumerate(path.read_text().splitlines(), 1):
        word, colon, rest = line.partition(":")
        rest = rest.removeprefix(" ")
        if not colon or word not in ("wrong", "refused", "shown", "file", "old", "new"):
            continue
        if word == "wrong":
            answers.append(Answer(rest.strip(), number))
        elif word == "file":
            file = rest
        elif not answers:
            raise BadEdit(f"{path}:{number}: `{word}:` before any `wrong: NAME`")
        elif word == "refused":
            if len(rest.split()) not in (1, 2):
                raise BadEdit(f"{path}:{number}: `refused:` names a PLACE and at most one DECLARATION")
            answers[-1].places.append(Place(number, *rest.split()))
        elif word == "shown":
            answers[-1].shown.append(rest)
        elif word == "old":
            old = rest
        else:
            if not old:
                raise BadEdit(f"{path}:{number}: `new:` without an `old:` text")
            answers[-1].changes.append(Change(file, old, rest))
            old = None
    return Edit(path, crate, changed, answers)


def apply(folder, answers):
    """Changes a copy of a crate as rt does: each old text stands in its file once."""
    for answer in answers:
        for change in answer.changes:
            path = folder / change.file
            text = path.read_text() if path.is_file() else ""
            if text.count(change.old) != 1:
                raise BadEdit(f"{answer.name}: {change.file} has {text.count(change.old)} times, not once: {change.old}")
            path.write_text(text.replace(change.old, change.new))


def functions_of(root, edit, answer):
    """The functions that an answer of code changes."""
    sources = {c.file: (root / "crates" / edit.changed / c.file).read_text() for c in answer.changes}
    return {function_at(sources[c.file], c.old) for c in answer.changes}


def apart(root, edit):
    """The answers of an edit in groups, each of which changes a function once."""
    groups = []
    for answer in edit.answers:
        changed = functions_of(root, edit, answer)
        for group in groups:
            if not group[0] & changed:
                group[0].update(changed)
                group[1].append(answer)
                break
        else:
            groups.append((changed, [answer]))
    return [answers for _, answers in groups]


def function_at(source, old):
    """The name of the function in whose text `old` begins; of a method the head of its `impl` stands before it."""
    before = source[: source.find(old) + len(old)]
    heads = re.findall(r'^(impl\b.*?) \{|^( *)(?:pub )?(?:extern "C" )?fn (\w+)', before, re.M)
    impls = [impl for impl, _, _ in heads if impl]
    functions = [(indent, name) for impl, indent, name in heads if not impl]
    if not functions:
        return ""
    indent, name = functions[-1]
    return f"{impls[-1]}::{name}" if indent and impls else name


def last_name(function):
    """A function's name without what stands before it."""
    return function.rpartition("::")[2]
