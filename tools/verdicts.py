"""What mistakes/verdicts.txt says: of each wrong edit the commit on which the prover last refused it, the goal at which it did,
and the sums of all that this verdict stands on. A verdict whose sums are not those of the files as they are is stale.

    CRATE/NAME OWN BELOW COMMIT GOAL
    CRATE/NAME - - - not tried yet

OWN is of the edit, and of its crate: its line of crates.txt, and the files of src, specs and proofs. BELOW is of the kit, and of
what the crate can see of those below it: their specs, their lemmas, and src without the bodies of functions. So a body that
changes below makes no verdict stale: what is proved above it rests on its clauses alone."""
import functools
import hashlib
import pathlib
import re
import subprocess

import crates

LIST = crates.ROOT / "mistakes" / "verdicts.txt"
HEAD = """\
# Of each wrong edit what its verdict stands on, the commit on which the prover last refused it, and the goal at which it did.
# Written by tools/mistakes alone; tools/verdicts.py says what the words are.
"""
UNTRIED = ("-", "-", "-", "not tried yet")
# (the body of a const fn may stand in the value of a constant)
FUNCTION = re.compile(r"^ *(?:pub(?:\(\w+\))? )?(?:unsafe )?fn (\w+)", re.M)
CLAUSE = re.compile(r"\b(?:requires|ensures|decreases|ghost)\b[^{};]*$")
# What may stand between braces and is none: comments, texts, characters.
SKIPPED = re.compile(r"//[^\n]*|/\*.*?\*/|b?\"(?:\\.|[^\"\\])*\"|r(#*)\".*?\"\1|b?'(?:\\[^\n]+?|[^'\\\n])'", re.S)
PARTS = ("src", "specs", "proofs")


def read():
    """Of each edit its verdict: the two sums, the commit, the goal."""
    lines = LIST.read_text().splitlines() if LIST.is_file() else []
    found = (line.split(" ", 4) for line in lines if line and not line.startswith("#"))
    return {words[0]: tuple(words[1:]) for words in found if len(words) == 5}


def write(found):
    """Keeps verdicts, a line for each edit, in the order of crates.txt and then of names."""
    order = {name: at for at, name in enumerate(crates.uses())}
    names = sorted(edits(), key=lambda edit: (order.get(edit.split("/")[0], -1), edit))
    made = LIST.with_suffix(".new")
    made.write_text(HEAD + "".join("%s %s\n" % (name, " ".join(found.get(name, UNTRIED))) for name in names))
    made.replace(LIST)


def edits():
    """The edits of mistakes/, by the name CRATE/NAME."""
    return {"%s/%s" % (file.parent.name, file.stem): file for file in sorted((crates.ROOT / "mistakes").glob("*/*.edit"))}


def without_bodies(text):
    """A source without the bodies of its functions; whole where one is not found."""
    plain = SKIPPED.sub(lambda it: " " * len(it[0]), text)
    parts, at = [], 0
    for found in FUNCTION.finditer(plain):
        if found.start() < at:
            continue
        body = body_of(plain, found.end())
        if body is None:
            return text
        parts.append(text[at:body[0]])
        at = body[1]
    return "".join(parts) + text[at:]


def function_at(text, at):
    """The name of the function in whose body a place is, if it is in one."""
    plain = SKIPPED.sub(lambda it: " " * len(it[0]), text)
    for found in FUNCTION.finditer(plain):
        body = body_of(plain, found.end())
        if body and body[0] < at < body[1]:
            return found[1]
    return None


def body_of(text, at):
    """Where the body of a function begins and ends that is named up to a place: the first block that is of no clause. Of a
    function without one it is empty; nothing where the braces do not match."""
    depth, begin = 0, at
    for found in re.finditer(r"[(\[{}\])]|;", text[at:]):
        sign, place = found[0], at + found.start()
        if sign == ";" and depth == 0:
            return place, place
        if sign in "([{":
            if sign == "{" and depth == 0 and not CLAUSE.search(text[begin:place]):
                end = block_end(text, place)
                return end and (place, end)
            depth += 1
        elif sign in ")]}":
            depth -= 1
            if depth == 0 and sign == "}":
                begin = place + 1
    return None


def block_end(text, place):
    depth = 0
    for found in re.finditer(r"[{}]", text[place:]):
        depth += 1 if found[0] == "{" else -1
        if depth == 0:
            return place + found.end()
    return None


def files_of(crate, parts=PARTS):
    folder = crates.ROOT / "crates" / crate
    return sorted(file for part in parts for file in (folder / part).rglob("*") if file.is_file())


@functools.lru_cache(maxsize=None)
def line_of(crate):
    lines = (crates.ROOT / "crates.txt").read_text().splitlines()
    return "".join(line for line in lines if line.partition(":")[0].split()[:1] == [crate])


@functools.lru_cache(maxsize=None)
def inside(crate):
    """A sum of a crate."""
    made = hashlib.sha256(line_of(crate).encode())
    for file in files_of(crate):
        made.update(repr((str(file.relative_to(crates.ROOT)), file.read_bytes())).encode())
    return made.hexdigest()


@functools.lru_cache(maxsize=None)
def seen(crate):
    """A sum of what others can see of a crate."""
    made = hashlib.sha256(line_of(crate).encode())
    for file in files_of(crate):
        path = file.relative_to(crates.ROOT)
        # (an answer, which stands in the folder of its function, is cited by no other crate)
        if path.parts[2] != "proofs" or len(path.parts) == 4:
            text = file.read_text()
            made.update(repr((str(path), without_bodies(text) if file.suffix == ".rt" else text)).encode())
    return made.hexdigest()


@functools.lru_cache(maxsize=None)
def kit():
    return subprocess.run(["rt", "version"], capture_output=True, text=True, check=True).stdout.splitlines()[0]


@functools.lru_cache(maxsize=None)
def below(crate):
    made = hashlib.sha256(kit().encode())
    for other in crates.below(crate):
        made.update(seen(other).encode())
    return made.hexdigest()[:16]


def sums(edit, file):
    """What the verdict on an edit stands on, in two sums."""
    crate = edit.split("/")[0]
    own = hashlib.sha256((inside(crate) + file.read_text()).encode()).hexdigest()[:16]
    return own, below(crate)


def stale(kept=None):
    """The edits that have no verdict, or one that is not of the files as they are."""
    kept = read() if kept is None else kept
    return [edit for edit, file in edits().items() if kept.get(edit, ())[:2] != sums(edit, file)]
