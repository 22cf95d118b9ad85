"""Rows of commands as they stand. A word that begins with @ is a file of the row alone; other files are those of the data. In
the answers NOW stands for the time of the clock, and @ for the folder of the row.

    A line                                Is answered with

    file @NAME PARTS..                    nothing: a file is written that has a dump of parts
    text-file @NAME TEXT..                nothing: one that has its body, and texts that are named
    long-file @NAME TIMES PARTS..         nothing: one that has a dump so many times
    copy FILE FILE                        nothing: the first is written to the second
    input PARTS.., input-file FILE        nothing: what standard input gives from here on
    broken-input PARTS..                  nothing: the same, and it fails after that
    room SIZE                             nothing: how many bytes standard output takes from here on
    taken FILE, free                      nothing: another program opens books, and closes them
    away FILE, back FILE                  nothing: a file is put elsewhere, and put back
    chargectl WORDS..                     the output of a command, `!` and each line on standard error, its status if not 0
    user [NAME [NAME]]                    nothing: from here on USER, and LOGNAME behind it, are these; a dash is none of them
    first SIZE chargectl WORDS..          the same, but no more than a number of bytes of each
    count-lines chargectl WORDS..         the same, but how many its output has; or count-bytes
    within KIB LINE                       what such a line is answered, and whether the command had no more memory in use
    sockets FILE, with a body of clients  what `serve` of the books says of each, and what each reads; it may have more words
    same FILE FILE, missing FILE          whether they are
    files                                 the names of the row's files, in order"""
import fcntl
import os
import re
import shutil

import clients
from commands import Streams, ran, shown, timed
from scripts import DATA, Unread, number_of

# The lock of a file of SQLite's, without which nobody has it open: its bytes, and where they are.
LOCK = 512, 1 << 30


def bytes_in(word):
    """A word with the bytes that it has as two digits behind a backslash and an x, as the system takes it."""
    return os.fsdecode(re.sub(rb"\\x([0-9A-F]{2})", lambda found: bytes.fromhex(found[1].decode()), word.encode()))


class Session:
    """A row: its files, what its streams give and take from here on, and what it holds open."""

    def __init__(self, folder):
        self.folder, self.streams = folder, Streams(folder.parent)
        self.memory, self.held = 0, None
        shutil.rmtree(folder, ignore_errors=True)
        folder.mkdir()

    def close(self):
        self.put("free")

    def path(self, word):
        word = bytes_in(word)
        return str(self.folder / word[1:]) if word.startswith("@") else word

    def file(self, word):
        return DATA / self.path(word)

    # ---- Files

    def write(self, word, pieces):
        try:
            with open(self.file(word), "wb") as out:
                out.writelines(pieces)
        except OSError:
            return ["NOT WRITTEN"]
        return []

    def write_long(self, word, times, dump):
        """Writes a file that has a dump so many times, with little memory."""
        some = max(1, min(times, 1_000))
        return self.write(word, [dump * some] * (times // some) + [dump * (times % some)])

    def two(self, verb, one, other):
        """Writes a file once more, or says whether two are the same."""
        try:
            data = self.file(one).read_bytes()
        except OSError:
            return ["NOT READ"]
        if verb == "copy":
            return self.write(other, [data])
        return ["SAME" if self.file(other).is_file() and self.file(other).read_bytes() == data else "OTHER"]

    def put(self, verb, book=None):
        """Has another program open the books, by the lock that both ask for, or close them; or puts them elsewhere, or back."""
        if verb in ("taken", "free") and self.held:
            self.held.close()
            self.held = None
        if verb == "taken":
            self.held = open(self.file(book), "r+b")
            fcntl.lockf(self.held, fcntl.LOCK_EX, *LOCK)
        if verb in ("away", "back"):
            here, elsewhere = self.file(book), self.file(book + "-elsewhere")
            os.rename(*((here, elsewhere) if verb == "away" else (elsewhere, here)))

    def answer_files(self, names, verb, words, body):
        if verb == "file":
            return self.write(words[0], [names.dump(words[1:])])
        if verb == "text-file":
            return self.write(words[0], [names.text(words[1:], body).encode()])
        if verb == "long-file":
            return self.write_long(words[0], number_of(words[1]), names.dump(words[2:]))
        if verb in ("copy", "same"):
            return self.two(verb, *words)
        if verb == "missing":
            return ["THERE" if os.path.lexists(self.file(*words)) else "MISSING"]
        return sorted(os.listdir(self.folder))

    # ---- Streams and commands

    def set_streams(self, names, verb, words):
        """Sets what standard input gives, what standard output takes, or who is there, from here on."""
        if verb == "user":
            self.streams.users = {name: bytes_in(word) for name, word in zip(("USER", "LOGNAME"), words) if word != "-"}
            return
        if verb == "room":
            self.streams.room = number_of(*words)
            return
        self.streams.file = self.file(*words) if verb == "input-file" else None
        self.streams.data = b"" if verb == "input-file" else names.dump(words)
        self.streams.fails = verb == "broken-input"

    def command(self, words, is_measured=False):
        """What a line shows of what a command left: all, the first bytes of each stream, or how many lines or bytes its output
        has."""
        most, kind = None, "chargectl"
        if words[:1] != ["chargectl"]:
            kind, *words = words
        if kind == "first" and words:
            most, words = number_of(words[0]), words[1:]
        if kind not in SHOWN or words[:1] != ["chargectl"]:
            raise Unread("no command of chargectl")
        kept = {"chargectl": None, "first": (most or 0) + 1}.get(kind, 0)
        left = ran([self.path(word) for word in words[1:]], self.streams, kept, is_measured)
        self.memory = left.memory
        counted = {"count-lines": "LINES %d" % left.lines, "count-bytes": "BYTES %d" % left.size}
        output = [counted[kind]] if kind in counted else [self.noted(line) for line in shown(left.output, "", most)]
        return output + shown(left.errors, "! ", most) + ["STATUS %d" % left.status] * (left.status != 0)

    def noted(self, line):
        """A line of an output, without what a journal says of another time and another folder each time it is played."""
        return timed(line).replace("%s/" % self.folder, "@")

    def measured(self, most, words):
        """What a command left that may have no more than so many KiB of memory in use."""
        told = self.command(words, True)
        used = self.memory
        return told + ["WITHIN %d KIB" % most if 0 < used <= most else "NOT WITHIN %d KIB: %d" % (most, used)]

    def answer(self, names, line):
        """What a line is answered."""
        verb, *words = line.words
        if verb in FILES:
            return self.answer_files(names, verb, words, line.body)
        if verb in STREAMS:
            return self.set_streams(names, verb, words) or []
        if verb == "within":
            return self.measured(number_of(words[0]), words[1:])
        if verb == "sockets":
            return clients.seen(self, names, *words, line.body)
        if verb in clients.BETWEEN:
            return self.put(verb, *words) or []
        return self.command(line.words)


FILES = frozenset("file text-file long-file copy same missing files".split())
STREAMS = frozenset("input broken-input input-file room user".split())
SHOWN = frozenset("chargectl first count-lines count-bytes".split())

# Lines of a session.
OF_SESSIONS = FILES | STREAMS | SHOWN | {"within", "sockets", *clients.BETWEEN}
