"""Scripts of worked rows, read as tests_scripts reads them: the lines that ask, with the answers that are written, and the dumps
and texts that they name."""
import dataclasses
import hashlib
import pathlib
import re

ROOT = pathlib.Path(__file__).resolve().parents[2]
DATA = ROOT / "crates" / "tests_books" / "data"

# The most zeros, or copies of a dump, that one part has.
MOST_TIMES = 100_000


class Unread(Exception):
    """A line that can't be read."""


@dataclasses.dataclass
class Line:
    """A line that asks: its number, its words, its body, and the answer that is written after it."""
    number: int
    words: list
    body: str
    wanted: list

    @property
    def verb(self):
        return self.words[0]


def names():
    """All scripts, the one first that names dumps and texts for the others."""
    found = sorted(str(file.relative_to(DATA)) for file in DATA.glob("**/*.rows"))
    return ["samples.rows"] + [name for name in found if name != "samples.rows"]


def read(name):
    """The lines of a script that ask. A body and an answer stand right after their line, with nothing between."""
    found, may_go_on = [], False
    for number, line in enumerate((DATA / name).read_text(encoding="utf-8").split("\n"), 1):
        if line.startswith("> "):
            found.append(Line(number, line[2:].split(), "", []))
            may_go_on = True
        elif not line or line.startswith("#"):
            may_go_on = False
        elif not may_go_on:
            raise Unread("%s:%d stands apart from the line that it belongs to" % (name, number))
        elif line.startswith("|"):
            found[-1].body += line[1:].removeprefix(" ") + "\n"
        else:
            found[-1].wanted.append(line)
    return found


# ---- Dumps and texts

def hex_of(word):
    if not re.fullmatch("([0-9A-F]{2})*", word):
        raise Unread("%s is not hexadecimal" % word)
    return bytes.fromhex(word)


def number_of(word, most=None):
    if not word.isdecimal() or most is not None and int(word) > most:
        raise Unread("%s is no number, or too large" % word)
    return int(word)


def put(out, place, piece):
    """Puts bytes over those at a place, if they are there."""
    if place + len(piece) > len(out):
        raise Unread("there are no %d bytes at %d" % (len(piece), place))
    out[place:place + len(piece)] = piece


class Names:
    """What scripts have named. A name may be given again, and then means what it was last given to."""

    def __init__(self):
        self.dumps, self.texts = {}, {}

    def copy(self):
        other = Names()
        other.dumps, other.texts = dict(self.dumps), dict(self.texts)
        return other

    def piece(self, part):
        """A dump that is named, or the bytes from one place of it up to another."""
        name, _, places = part.partition("/")
        begin, found, end = places.partition("..")
        if name not in self.dumps or bool(places) != bool(found):
            raise Unread("%s names no dump" % part)
        dump = self.dumps[name]
        if not places:
            return dump
        begin, end = number_of(begin), number_of(end or str(len(dump)), len(dump))
        if begin > end:
            raise Unread("%s ends before it begins" % part)
        return dump[begin:end]

    def copies(self, part):
        """Such bytes once, or as often as a star says, with the number of each copy at the place after an at sign."""
        part, _, times = part.partition("*")
        times, is_numbered, place = times.partition("@")
        piece, times = self.piece(part), number_of(times or "1", MOST_TIMES)
        if not is_numbered:
            return piece * times
        out = bytearray()
        for number in range(times):
            copy = bytearray(piece)
            put(copy, number_of(place), number.to_bytes(2, "big"))
            out += copy
        return out

    def dump(self, parts, lines=""):
        """The dump of parts (NAME, NAME/FROM..TO, either with *COUNT or *COUNT@PLACE; x:HEX, zeros:COUNT; PLACE:HEX, which is
        put over what is there so far), and of what lines spell after them, up to a semicolon."""
        out = bytearray()
        for part in parts:
            kind, found, rest = part.partition(":")
            if not found:
                out += self.copies(part)
            elif kind == "x":
                out += hex_of(rest)
            elif kind == "zeros":
                out += bytes(number_of(rest, MOST_TIMES))
            else:
                put(out, number_of(kind), hex_of(rest))
        for line in lines.splitlines():
            for word in line.partition(";")[0].split():
                out += hex_of(word)
        return bytes(out)

    def text(self, names, body=""):
        """A body, and the texts that are named after it."""
        missing = [name for name in names if name not in self.texts]
        if missing:
            raise Unread("%s names no text" % missing[0])
        return body + "".join(self.texts[name] for name in names)

    def record(self, word):
        """The name that a word spells, or that of the one record which it names: the SHA-256 of its data, without the
        descriptors of its segments."""
        if re.fullmatch("[0-9A-Fa-f]{64}", word):
            return word
        dump, data = self.dump([word]), b""
        while dump:
            length = int.from_bytes(dump[:2], "big")
            if length < 4:
                raise Unread("%s is no record" % word)
            data, dump = data + dump[4:length], dump[length:]
        return hashlib.sha256(data).hexdigest()

    def take(self, line):
        """Names a dump or a text, if that is what a line does. Nothing is answered."""
        if line.verb == "dump":
            self.dumps[line.words[1]] = self.dump(line.words[2:], line.body)
        elif line.verb == "text":
            self.texts[line.words[1]] = self.text(line.words[2:], line.body)
        return []
