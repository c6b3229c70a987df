"""The modules that a check of a crate saves, and how long each took.

A check over a folder of its own (`--incremental`) saves each module there as it is done, so the times of these files tell how long each took, in seconds by the
clock. The modules of the libraries are read when they are first needed, and the time of that is told of whatever was being checked then: in an upper crate
half of all, so look twice at a small file of lemmas, or a `Given`, `Kinds`, `Key` or `Tie` with many seconds. The crate's own name stands for the writing of
its library.
"""
import os
import re

PARTS = {"Lts", "Proof", "Code", "Statement", "Met", "Tie", "Goals", "Answers", "Invariants", "Borrows", "Names", "TheLoops", "Old"}


def saved(folder, crate):
    """The modules of a crate that were saved, with the time of each."""
    found = {}
    for at, _, names in os.walk(folder):
        for name in names:
            module = name.removesuffix(".oantt").removesuffix(".decls")
            if name.endswith(".oantt") and re.match(f"Rattle-{crate}([.-]|$)", module):
                try:
                    found[module] = os.lstat(f"{at}/{name}").st_mtime
                except OSError:
                    continue
    return found


def subject(crate, module):
    """What a module is about: a function, with all that was made of it, or a file of the crate's own."""
    words = module.split(".")
    while len(words) > 2 and words[-1] in PARTS:
        words.pop()
    return ".".join(words).replace(f"Rattle-{crate}-proofs.", "").replace(f"Rattle-{crate}-specs.", "specs.")


def seconds(crate, modules):
    """The seconds that each subject of a crate took, by the times of its modules."""
    costs, before = {}, None
    for module, time in sorted(modules.items(), key=lambda it: it[1]):
        if before is not None:
            of = subject(crate, module)
            costs[of] = costs.get(of, 0.0) + time - before
        before = time
    return costs
