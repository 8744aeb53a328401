"""The rule that every wrong answer is held to. docs/PROVING.md has it in words."""

import os
import re
from concurrent.futures import ThreadPoolExecutor
from dataclasses import dataclass
from pathlib import Path

import kit

from . import logs, runs
from .edits import BadEdit, apart, edits_of, function_at, last_name
from .rows import is_computed_row
from .tries import Tries

# how many crates are tried at a time
CRATES = min(4, len(os.sched_getaffinity(0)))


@dataclass
class Complaint:
    path: Path
    line: int
    name: str
    reason: str
    mend: str

    def __str__(self):
        return f"{self.path}:{self.line}: {self.name}: {self.reason}. To mend it: {self.mend}."


def check(root, only=()):
    """The complaints about all edits of a repository, or about those of some crates."""
    edits = [e for e in edits_of(root) if not only or e.crate in only]
    if not edits:
        raise BadEdit("no wrong answer was checked")
    found = [complaint for edit in edits for complaint in form(root, edit)]
    if found:
        return found
    by_crate = {crate: [e for e in edits if e.crate == crate] for crate in dict.fromkeys(e.crate for e in edits)}
    with ThreadPoolExecutor(CRATES) as pool:
        for complaints in pool.map(lambda crate: of_crate(root, crate, by_crate[crate]), by_crate):
            found += complaints
    return found


def of_crate(root, crate, edits):
    """Complaints about the edits of one crate."""
    try:
        with Tries(root, crate) as tries:
            found = [complaint for edit in edits for complaint in refusal(root, edit, tries)]
    except kit.Failed as failed:
        edit = edits[0]
        return [Complaint(edit.path, 1, edit.label, str(failed), f"have `rt ci {crate}` pass first")]
    return found + shown(root, edits)


# ---- what an edit says


def form(root, edit):
    """Complaints that need no run: an answer says all that it must, and in the form that can tell what refused it."""
    if not edit.answers:
        yield Complaint(edit.path, 1, edit.label, "it has no wrong answer", "begin it with `wrong: NAME`")
    for answer in edit.answers:
        for reason, mend in amiss(root, edit, answer):
            yield Complaint(edit.path, answer.line, answer.name, reason, mend)


def amiss(root, edit, answer):
    if not answer.changes or not answer.places:
        return [("it changes nothing, or names no place that must refuse it", "write `old:`, `new:` and `refused: PLACE [DECLARATION]`")]
    if not all(c.file.startswith(("src/", "specs/")) for c in answer.changes):
        return [("it changes a proof", "change code or a definition alone")]
    return amiss_in_code(root, edit, answer) if answer.is_of_code() else amiss_in_definition(root, edit, answer)


def amiss_in_code(root, edit, answer):
    if edit.changed != edit.crate:
        yield "it changes the code of a lower crate, which the upper one does not see", "change a definition of it"
    if not answer.shown:
        yield "nothing shows that it is wrong", "write `shown: EXPRESSION`, which holds of the crate and not with this answer"
    functions = {proof_of(c.file, function_at((root / "crates" / edit.changed / c.file).read_text(), c.old)) for c in answer.changes}
    if functions != {p.file for p in answer.places}:
        yield f"it changes {', '.join(sorted(functions))}, and another proof is to refuse it", "name the function that it changes"


def proof_of(file, function):
    """The name that the prover gives a function of a file of src/, a method with the head of its `impl`: its module, then all words of the type and of the trait."""
    modules = [m for m in Path(file).with_suffix("").parts[1:] if m not in ("lib", "main")]
    head = function.removesuffix(last_name(function)).removesuffix("::")
    trait, _, of = re.sub(r"^impl(<.*?>)? ?", "", head).rpartition(" for ")
    words = [word for part in (of, trait) for word in re.findall(r"'\w+|\[|\w+", part) if word[0] != "'"]
    name = "".join("Array" if word == "[" else word[0].upper() + word[1:] for word in words)
    return "::".join([*modules, *([name] if name else []), last_name(function)])


def amiss_in_definition(root, edit, answer):
    if answer.shown:
        yield "a definition does not run", "drop `shown:`; a computed row tells that it is wrong"
    if len(edit.answers) > 1:
        yield "a wrong definition stands with others, any of which may be what is refused", "give it an edit of its own"
    if not any(is_row(root, edit, p) for p in answer.places):
        yield "no computed row is to refuse it", "name one: a declaration without parameters, of equations that `refl` alone proves"


def is_row(root, edit, place):
    return is_computed_row(root / "crates" / edit.crate, place.file, place.declaration)


# ---- what the prover said


def refusal(root, edit, tries):
    """Complaints about places that did not refuse their answer, or not by a fact that no longer holds. An answer is tried beside those that change
    other functions, and by itself where its place does not refuse it there: a function's own goals may wait for those of what it calls."""
    first = edit.answers[0]
    try:
        if edit.changed != edit.crate:
            log = tries.log_above(edit)
            if not log:
                return [Complaint(edit.path, first.line, first.name, f"{edit.changed} is no longer proved with it", "keep to a definition that its own crate proves; what that crate refuses is an edit of its own")]
            return complaints(root, edit, edit.answers, log)
        found = []
        for group in apart(root, edit):
            amiss = complaints(root, edit, group, tries.log(group))
            if len(group) > 1:
                names = {c.name for c in amiss}
                amiss = [c for answer in group if answer.name in names for c in complaints(root, edit, [answer], tries.log([answer]))]
            found += amiss
        return found
    except BadEdit as bad:
        return [Complaint(edit.path, first.line, first.name, str(bad), "the old text stands in its file once")]


def complaints(root, edit, answers, log):
    errors = logs.errors_of(log)
    return [
        Complaint(edit.path, place.line, answer.name, f"{place} refused it {why}", mend(errors, place))
        for answer in answers
        for place in answer.places
        if (why := unrefused(logs.at(errors, place), is_row(root, edit, place)))
    ]


def mend(errors, place):
    facts = dict.fromkeys(e.declaration for e in errors if e.file == place.file and e.is_fact())
    there = f" (there {', '.join(facts)} refused)" if facts else ""
    return f"name a place whose fact no longer holds{there}, or drop it: it may be a right answer, spelt otherwise"


def unrefused(there, of_row):
    """How the errors at a place fall short of a fact that no longer holds; nothing where one of them is such."""
    if any(e.is_computed() if of_row else e.is_fact() for e in there):
        return ""
    return "only because the proof no longer fits" if there else "not at all"


# ---- what a run shows


def shown(root, edits):
    """Complaints about a crate's answers of code that no run shows to be wrong."""
    of_edit = [(e, a) for e in edits for a in e.answers if a.is_of_code()]
    names = [a.name for _, a in of_edit]
    twice = [(e, a) for e, a in of_edit if names.count(a.name) > 1]
    if twice:
        return [Complaint(e.path, a.line, a.name, "another answer of the crate has this name", "give it one of its own") for e, a in twice]
    paths = {a.name: e.path for e, a in of_edit}
    amiss = runs.complaints(root, edits[0].crate, [a for _, a in of_edit])
    return [Complaint(paths[a.name], a.line, a.name, reason, mend) for a, reason, mend in amiss]
