"""What the first build of a program leaves out of the gate.

The gate also looks, behind the proof of each crate, for contracts that no call can meet, which was 4 and 7 hundredths of the checks of two larger crates, and more of small ones: a question to the authors, which the gate
has asked of them. A first build proves each function, and doesn't ask it. So nothing that it proves may count for the gate, and none of it is kept for that.
And the gate compiles a program by LLVM and then also by Rattle's own compiler, to compare what the two write; the program that is built here is LLVM's.
"""
LOOK = "--empty-contracts"


def shorten(kit):
    """Has a toolchain's gate, which has been loaded as a module, do no more than a first build needs."""
    prove_alone(kit)
    compile_once(kit)


def prove_alone(kit):
    """Leaves out the look for contracts that no call can meet; only where it can be seen to that the gate gets no proof from here."""
    keeper, checks = getattr(kit, "Kept", None), getattr(kit, "rtlib", None)
    if not hasattr(checks, "help_of") or keeper is not None and not hasattr(keeper, "keep"):
        return
    help_of = checks.help_of
    checks.help_of = lambda verb: help_of(verb).replace(LOOK, "")
    if keeper is not None:
        keeper.keep = lambda *_: None


def compile_once(kit):
    """Has a program compiled by LLVM alone; where a toolchain has another form, it compiles as it does."""
    if not hasattr(getattr(kit, "Crate", None), "compile_by"):
        return
    compile_by = kit.Crate.compile_by
    kit.Crate.compile_by = lambda crate, backend, words, to: 0 if backend == "rattle" else compile_by(crate, backend, words, to)
