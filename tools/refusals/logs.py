"""What the prover said of a crate with an edit in it: the errors that stand for a fact which no longer holds."""

import re
from dataclasses import dataclass

ERROR = re.compile(r"^(?P<path>\S+):\d+:\d+: error: `(?P<declaration>[^`]+)`: ")
# goals without an answer, which the prover's own search does not close
UNPROVED = re.compile(r"^fn \w+::(?P<function>[\w:]+): .*?`search` did not prove (?P<needs>[^;]*)")
# what rests on another declaration, or on what the changed code no longer has, says nothing of the fact itself
MISFIT = re.compile(r"was not admitted|which was rejected|has no field|has no `|is not in scope")
# nor does a refusal that is over once another definition is unfolded, as a note behind it says
UNFOLDED = "of this declaration was admitted by the kernel"


@dataclass
class Error:
    # the file of laws or the function, and the declaration or goal in it
    file: str
    declaration: str
    text: str
    is_over_unfolded: bool = False

    def is_fact(self):
        return not MISFIT.search(self.text) and not self.is_over_unfolded

    def is_computed(self):
        """Whether the two sides of an equation were computed to the end and differ."""
        stuck = "do not unfold here" in self.text or "does not unfold here" in self.text
        return self.is_fact() and "expected type" in self.text and "but this has type" in self.text and not stuck


def errors_of(log):
    """The errors of a log, in order."""
    errors = []
    for said in re.findall(r"^\S.*(?:\n  .*)*", log, re.M):
        error, unproved = ERROR.match(said), UNPROVED.match(said)
        if error:
            errors.append(Error(place_of(error["path"]), error["declaration"], said))
        elif unproved:
            errors += [Error(unproved["function"], need, said) for need in re.findall("`([^`]+)`", unproved["needs"])]
        elif UNFOLDED in said and errors:
            for e in errors:
                e.is_over_unfolded |= (e.file, e.declaration) == (errors[-1].file, errors[-1].declaration)
    return errors


def place_of(path):
    """The function whose proof it is, a method with its type before it, or the file of laws without its ending."""
    below = path.rpartition("/proofs/")[2]
    return below.rpartition("/")[0].replace("/", "::") if "/" in below else below.removesuffix(".antt")


def at(errors, place):
    """The errors at a place."""
    return [e for e in errors if e.file == place.file and place.declaration in ("", e.declaration)]
