"""Runs that show of a wrong answer of code that it is wrong.

Its expression holds of the crate as it is and no longer with this answer alone in it. A contract here fixes the reply and every lent
byte, so that no proof can show of an answer which differs that it meets the contract: what refuses it is a fact that no longer holds.
Nothing is proved for such a run: `rt try` takes the sources as they are.
"""

import os
import re
import shutil
import signal
import subprocess
from pathlib import Path
from tempfile import TemporaryDirectory

import kit

from .edits import apply
from .kept import kept, of_crates

PROGRAM = "shown"
# what takes longer goes on for ever
SECONDS = 900


def given(root, crate):
    """What the expressions of a crate's edits share: functions of Rattle in crates/CRATE/shown.txt, and in those of the crates below."""
    files = (root / "crates" / c / "shown.txt" for c in kit.with_dependencies(root, [crate]))
    return "\n".join(f.read_text() for f in files if f.is_file())


def program(parts):
    """A program that prints for each part, a name and its text, what the expression in it answers."""
    modules = "".join(f"\nmod {name} {{\n{text}\n}}\n" for name, text in parts)
    lines = "".join(f'    let {name} = {name}::shown();\n    println!(rt; "{name} {{{name}}}")?;\n' for name, _ in parts)
    return f"#![tactic(auto)]\n\nuse std::io;\n{modules}\nfn main(rt: HostRuntime) -> io::Result<()> {{\n{lines}    Ok(())\n}}\n"


def part(given, answer, crate, called):
    """The text of an answer's expression, which calls the crate by another name."""
    body = "\n".join(answer.shown)
    return re.sub(rf"\b{crate}::", f"{called}::", f"{given}\n\npub fn shown() -> bool {{\n{body}\n}}")


def outcomes(root, crate, shared, asked):
    """How the expressions asked for end, each an answer, and the answers that are in the crate for it: by rt's words where they don't all end in true or false."""
    text = program([(f"at_{i}", part(shared, answer, crate, f"{crate}_{i}" if changed else crate)) for i, (answer, changed) in enumerate(asked)])
    below = kit.with_dependencies(root, {crate, *named_in(text, kit.dependencies(root))})
    listed = kit.dependencies(root)
    if any(crate in listed[c] for c in below) and any(changed for _, changed in asked):
        return crate_in_place(root, crate, shared, asked, below)
    rests_on = [[c for a in changed for c in a.changes] for _, changed in asked]
    said = kept(lambda: run(root, crate, text, below, asked), "run", of_crates(root, below), text, rests_on)
    ended = dict(re.findall(r"^(at_\d+) (true|false)$", said, re.M)) if "run=ended status=0" in said else {}
    return [ended.get(f"at_{i}") or brief(said) for i in range(len(asked))]


def run(root, crate, text, below, asked):
    """Runs the program over the crates as they are, and over copies of the crate under other names, each with its answers."""
    with TemporaryDirectory() as folder:
        folder = Path(folder)
        listed = kit.dependencies(root)
        for c in below:
            copy_source(root, c, folder / "crates" / c)
        lines = {c: listed[c] for c in below}
        for i, (_, changed) in enumerate(asked):
            if changed:
                copy_source(root, crate, folder / "crates" / f"{crate}_{i}")
                apply(folder / "crates" / f"{crate}_{i}", changed)
                lines[f"{crate}_{i}"] = listed[crate]
        return tried(folder, lines, text)


def crate_in_place(root, crate, shared, asked, below):
    """The same where an expression calls crates above: each has a run of its own, with its answers in the crate itself."""
    found = []
    for answer, changed in asked:
        text = program([("at_0", part(shared, answer, crate, crate))])
        changes = [c for a in changed for c in a.changes]
        said = kept(lambda: run_in_place(root, crate, text, below, changed), "in place", of_crates(root, below), text, changes)
        ended = re.search(r"^at_0 (true|false)$", said, re.M) if "run=ended status=0" in said else None
        found.append(ended[1] if ended else brief(said))
    return found


def run_in_place(root, crate, text, below, changed):
    with TemporaryDirectory() as folder:
        folder = Path(folder)
        for c in below:
            copy_source(root, c, folder / "crates" / c)
        apply(folder / "crates" / crate, changed)
        return tried(folder, {c: kit.dependencies(root)[c] for c in below}, text)


def copy_source(root, crate, to):
    shutil.copytree(root / "crates" / crate / "src", to / "src")


def tried(folder, lines, text):
    """What `rt try` says of the program over the crates of a folder, each with what it depends on."""
    source = folder / "crates" / PROGRAM / "src" / "main.rt"
    source.parent.mkdir(parents=True)
    source.write_text(text)
    lines = {**lines, PROGRAM: list(lines)}
    (folder / "crates.txt").write_text("".join(f"{c}: {' '.join(deps)}\n" for c, deps in lines.items()))
    how = {"stdin": subprocess.DEVNULL, "stdout": subprocess.PIPE, "stderr": subprocess.STDOUT, "text": True, "start_new_session": True}
    started = subprocess.Popen(["rt", "try", "--steps", "2000000000"], cwd=source.parent.parent, **how)
    try:
        return started.communicate(timeout=SECONDS)[0]
    except subprocess.TimeoutExpired:
        # rt itself, and the program that it has started
        os.killpg(started.pid, signal.SIGKILL)
        started.communicate()
        raise kit.Failed(f"rt try did not end within {SECONDS} seconds") from None


def named_in(text, crates):
    """The crates that a text of Rattle names by `CRATE::`."""
    words = set(re.findall(r"\b(\w+)::", text))
    return [c for c in crates if c in words]


def brief(said):
    lines = [re.sub(r"/\S*/crates/", "crates/", line.strip()) for line in said.splitlines() if line.strip()]
    return "; ".join(line for line in lines[:4] if not re.match(r"at_\d+ ", line))


def complaints(root, crate, answers):
    """Of each answer whose run does not show that it is wrong: the answer, what is amiss, and how to mend it."""
    shared = given(root, crate)
    asked = [ask for answer in answers for ask in ((answer, []), (answer, [answer]))]
    ended = outcomes(root, crate, shared, asked) if answers else []
    if not {*ended} <= {"true", "false"}:
        # what one of them ends in is not told of the others
        ended = [end for ask in asked for end in outcomes(root, crate, shared, [ask])]
    for answer, before, after in zip(answers, ended[::2], ended[1::2]):
        if before == "false":
            yield answer, "its expression does not hold of the crate as it is", "write one that does"
        elif before != "true":
            yield answer, f"its expression does not run: {before}", "mend the `shown:` line, or shown.txt of the crate"
        elif after == "true":
            yield answer, "its expression still holds with this answer in the crate", "show an input on which the answer is another one, or drop it: it may be a right answer, spelt otherwise"
        elif after != "false":
            yield answer, f"with this answer in the crate the run does not end in its expression: {after}", "keep to an edit that compiles and an input on which it answers"
