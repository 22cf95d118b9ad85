"""What crates.txt says: each crate of the repository, and which others of it each one uses; and what tools/times says of their
proofs."""
import pathlib

ROOT = pathlib.Path(__file__).resolve().parent.parent


def uses():
    """Of each crate, in the order of crates.txt, the crates of the repository that its line names."""
    lines = {}
    for line in (ROOT / "crates.txt").read_text().splitlines():
        name, found, libraries = line.split("#")[0].partition(":")
        if found:
            lines[name.split()[0]] = libraries.split()
    return {name: [library for library in libraries if library in lines] for name, libraries in lines.items()}


def times():
    """Of each crate the seconds of processor time that its proof took from nothing, where tools/times has them."""
    lines = (ROOT / "tools" / "times").read_text().splitlines()
    pairs = (line.split() for line in lines if line and not line.startswith("#"))
    return {name: int(seconds) for name, seconds in pairs}


def below(name, of=None):
    """The crates that one uses, lowest first."""
    of = of or uses()
    wanted, waiting = set(), [name]
    while waiting:
        for library in of[waiting.pop()]:
            if library not in wanted:
                wanted.add(library)
                waiting.append(library)
    return [crate for crate in of if crate in wanted]


def above(name, of=None):
    """The crates that use one, lowest first."""
    of = of or uses()
    return [crate for crate in of if name in below(crate, of)]
