"""Computed rows: declarations without parameters that state equations between closed terms and are proved by `refl` alone.

Both sides of such a row are computed, so that a definition which is spelt otherwise and means the same leaves it true. Only a row can
therefore tell a wrong definition from a proof that no longer fits.
"""

import re


def is_computed_row(folder, file, name):
    """Whether proofs/FILE.antt of a crate's folder declares NAME as a computed row."""
    path = folder / "proofs" / f"{file}.antt"
    if not path.is_file():
        return False
    text = without_comments(path.read_text())
    stated = re.search(rf"^(?:pub )?{re.escape(name)} :((?:.*\n)(?:[ \t]+.*\n)*)", text, re.M)
    proved = re.search(rf"^{re.escape(name)} =((?:.*\n)(?:(?:[ \t]+.*|\}})\n)*)", text, re.M)
    if not stated or not proved:
        return False
    stated, proved = spaced(stated[1]), spaced(proved[1])
    if is_equation(stated):
        return proved == "refl"
    fields = fields_of(folder, text, stated)
    return bool(fields) and all(map(is_equation, fields.values())) and proofs_of(proved) == dict.fromkeys(fields, "refl")


def is_equation(stated):
    return "≡" in stated and not re.search("[→×∀]", stated)


def fields_of(folder, text, name):
    """The fields of a record without parameters, of this file or of the crate's definitions, each with its type."""
    if not re.fullmatch(r"[^\s(){}]+", name):
        return {}
    for source in [text] + [without_comments(p.read_text()) for p in sorted((folder / "specs").rglob("*.antt"))]:
        record = re.search(rf"^(?:pub )?record {re.escape(name)} : Type 0 where\n((?:[ \t]+.*\n|\n)*)", source, re.M)
        if record:
            parts = re.split(r"^  (?=\S)", record[1], flags=re.M)[1:]
            return dict(spaced(p).removeprefix("pub ").split(" : ", 1) for p in parts)
    return {}


def proofs_of(proved):
    """What a term `record { f = t; .. }` gives for each field."""
    body = re.fullmatch(r"record \{(.*)\}", proved)
    if not body:
        return {}
    parts = [p.split("=", 1) for p in body[1].split(";") if p.strip()]
    return {f.strip(): "".join(t).strip() for f, *t in parts}


def without_comments(text):
    return re.sub(r"--.*", "", text) + "\n"


def spaced(text):
    return " ".join(text.split())
