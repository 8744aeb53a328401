"""What earlier runs on this machine came to, by a checksum of all that it rests on, as `rt ci` keeps its own."""

import hashlib
import os
from contextlib import suppress
from functools import cache
from pathlib import Path
from tempfile import NamedTemporaryFile

import kit

FOLDER = Path(os.environ.get("XDG_CACHE_HOME") or Path.home() / ".cache") / "mistfleece" / "refusals"


@cache
def of_tools():
    tools = Path(__file__).resolve().parent
    found = hashlib.sha256(kit.version().encode())
    for path in [tools.parent / "kit.py", *(tools / f"{name}.py" for name in ("edits", "kept", "runs", "tries"))]:
        found.update(path.read_bytes())
    return found.hexdigest()


def of_crates(root, crates):
    """The sum of these crates and of what they depend on."""
    listed, found = kit.dependencies(root), hashlib.sha256(of_tools().encode())
    for crate in kit.with_dependencies(root, crates):
        found.update(repr((crate, listed.get(crate))).encode())
        for path in kit.files_of(root / "crates" / crate):
            found.update(repr((str(path.relative_to(root)), path.read_bytes())).encode())
    return found.hexdigest()


def kept(make, *rests_on):
    """The text that `make` gives, or that it gave when it rested on the same."""
    path = FOLDER / hashlib.sha256(repr(rests_on).encode()).hexdigest()
    if path.is_file():
        return path.read_text()
    text = make()
    # (where it can't be kept, it is made again)
    with suppress(OSError):
        FOLDER.mkdir(parents=True, exist_ok=True)
        with NamedTemporaryFile("w", dir=FOLDER, delete=False) as written:
            written.write(text)
        os.replace(written.name, path)
    return text
