"""What the tools run of the Rattle kit beside rt: its prover over the libraries that rt built in crates/NAME/out/rlib."""

import subprocess
from functools import cache
from pathlib import Path

PARTS = ["src", "specs", "proofs"]


class Failed(Exception):
    pass


@cache
def folder():
    return Path(subprocess.run(["rt", "doc"], stdout=subprocess.PIPE, text=True, check=True).stdout.strip()).parent


@cache
def version():
    return subprocess.run(["rt", "version"], stdout=subprocess.PIPE, text=True, check=True).stdout


def dependencies(root):
    """The crates of crates.txt in order, each with what it depends on."""
    lines = (line.partition("#")[0].strip() for line in (root / "crates.txt").read_text().splitlines())
    return {name.split()[0]: deps.split() for name, _, deps in (line.partition(":") for line in lines if line)}


def with_dependencies(root, crates):
    listed = dependencies(root)
    wanted = set(crates).union(*(listed[c] for c in crates))
    return [c for c in listed if c in wanted]


def files_of(crate):
    return sorted(p for part in PARTS for p in (crate / part).rglob("*") if p.is_file())


def rlib(root, crate):
    return root / "crates" / crate / "out" / "rlib" / f"{crate}.rlib"


def is_of_ci(root, crate):
    """Whether the crate's library is what `rt ci` left: without the stamp by which rt's other commands know their own, and no older than a source."""
    made = rlib(root, crate)
    if not made.is_dir() or (made.parent / "stamp").exists():
        return False
    return made.parent.stat().st_mtime >= max((p.stat().st_mtime for p in files_of(root / "crates" / crate)), default=0)


def build(root, crates):
    """Builds the libraries of crates, lower ones first, where they aren't there as the sources are. What `rt ci` proved and built isn't proved again."""
    for crate in crates:
        if not is_of_ci(root, crate):
            said = subprocess.run(["rt", "lib"], cwd=root / "crates" / crate, stdout=subprocess.PIPE, stderr=subprocess.STDOUT, text=True)
            if said.returncode:
                raise Failed(f"{crate} is not proved:\n{said.stdout}")


def rattle(verb, root, crate, *words, at=None, rlibs=None, jobs=1):
    """Runs the prover on a crate of the repository, or on its copy at a folder, over the libraries that stand there, or over those in `rlibs`, by crate."""
    kit, listed, instead = folder(), dependencies(root), rlibs or {}
    is_program = (root / "crates" / crate / "src" / "main.rt").is_file()
    said = [kit / "bin" / "rattle", verb, "--crate-name", crate, "src/main.rt" if is_program else "src/lib.rt"]
    said += ["--extern", f"std={kit}/rlibs/std.rlib", "-L", f"dependency={kit}/rlibs"]
    for dep in listed[crate]:
        made = instead.get(dep, rlib(root, dep)) if dep in listed else kit / "rlibs" / f"{dep}.rlib"
        said += ["--extern", f"{dep}={made}", "-L", f"dependency={made.parent}"]
    # what only its dependencies depend on
    below = {c for dep in listed[crate] if dep in listed for c in listed[dep] if c in listed} - {crate, *listed[crate]}
    said += [word for c in sorted(below) for word in ("-L", f"dependency={instead.get(c, rlib(root, c)).parent}")]
    said += ["--antt-project", kit / "rattle" / "logic" / "antt-project.json", "--logic-built", kit / "logic_built", "--jobs", str(jobs), *words]
    how = {"stdin": subprocess.DEVNULL, "stdout": subprocess.PIPE, "stderr": subprocess.STDOUT, "text": True, "errors": "replace"}
    return subprocess.run(said, cwd=at or root / "crates" / crate, **how)
