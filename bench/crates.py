"""What crates.txt says: the libraries that each crate names, and the crates that a crate stands on."""


def named(top):
    """The libraries that each crate of the repository names, by the crate's name."""
    found = {}
    with open(f"{top}/crates.txt", encoding="utf-8") as it:
        for line in it:
            crate, colon, libraries = line.partition("#")[0].partition(":")
            if colon:
                found[crate.strip()] = libraries.split()
    return found


def with_all_below(crate, every):
    """A crate and all crates that it stands on, each after those, with the libraries that it names; `every` is what `named` gives."""
    found = {}
    for library in every[crate]:
        if library in every:
            found.update(with_all_below(library, every))
    return {**found, crate: every[crate]}
