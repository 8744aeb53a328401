"""Holds the must-fail edits to their rule: each wrong answer is wrong, and is refused for that and not because a proof no longer fits.

`edits` reads them, `rows` and `logs` read what the prover was given and said, `runs` shows that an answer is wrong, `above` tries a
crate over a lower one that was changed, and `rule` puts these together.
"""
