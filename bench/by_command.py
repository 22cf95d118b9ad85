"""Hostile inputs to commands, a process each; for `hostile`."""
import collections
import hashlib
import os
import pathlib
import resource
import shutil
import subprocess
import time

import formats
import inputs
from by_http import Broken, Server
from loopback import CHARGECTL, get, post
from outcome import FEBRUARY, MONTH, MOST_MEMORY, MOST_SECONDS, SAMPLES, audited, new_books

Ran = collections.namedtuple("Ran", "status out err")

# How many bytes a pipe holds.
PIPE = 65_536


def named(ran):
    """What is wrong with the end of a command, if anything: a status of no name, or other words
    than go with it."""
    if ran.status < 0:
        return "ended by signal %d" % -ran.status
    if ran.status == 0:
        return "status 0, and words on standard error" if formats.said_first(ran.err) else None
    if ran.status == 2:
        return None if ran.err and not ran.out else "status 2, and other words than of usage"
    return None if ran.status in formats.statuses_of(ran.err) else "status %d" % ran.status


class Commands:
    """The part of a batch that goes to commands, in a folder of its own."""

    def __init__(self, folder, outcome):
        self.folder, self.outcome, self.index = folder, outcome, None
        self.book, self.place = folder / "imported", folder / "place"
        self.words_at = folder / "words"
        self.model = new_books(self.book)
        self.place.mkdir()
        self.words_at.mkdir()
        self.file, self.logged, self.log = self.sound_files()
        (self.words_at / "books").write_bytes(self.file)
        (self.words_at / "dump").write_bytes(MONTH)
        (self.words_at / "tariff").write_bytes(inputs.TARIFFS[1])

    def sound_files(self):
        """Books in one file; and others, with the log that lies beside them while an import goes on: it has read more than a
        piece of the dump, whose records are committed, and waits for the next."""
        book, pipe = self.folder / "logged", self.folder / "pipe"
        new_books(book)
        file = book.read_bytes()
        os.mkfifo(pipe)
        goes_on = subprocess.Popen([CHARGECTL, "import", book, pipe], stdout=subprocess.DEVNULL)
        with open(pipe, "wb") as dump:
            dump.write(FEBRUARY * (3 * PIPE // len(FEBRUARY)))
            dump.flush()
            logged, log = (pathlib.Path(str(book) + tail).read_bytes() for tail in ("", "-wal"))
        goes_on.wait(MOST_SECONDS)
        return file, logged, log

    def run(self, given, *words, stdin=os.devnull, cwd=None):
        """How a command ends. It has bounds of time and memory."""
        begun = time.monotonic()
        try:
            with open(stdin, "rb") as source:
                ended = subprocess.run([CHARGECTL, *words], stdin=source, capture_output=True,
                                       timeout=MOST_SECONDS, cwd=cwd)
        except subprocess.TimeoutExpired:
            self.fault("it did not end: %s" % (words,), given)
            return Ran(None, b"", b"")
        ran = Ran(ended.returncode, ended.stdout, ended.stderr)
        self.outcome.took("commands", time.monotonic() - begun)
        megabytes = resource.getrusage(resource.RUSAGE_CHILDREN).ru_maxrss / 1024
        if megabytes > MOST_MEMORY >= self.outcome.memory.get("commands", 0):
            self.fault("%.1f MB: %s" % (megabytes, words), given)
        self.outcome.used("commands", megabytes)
        wrong = named(ran)
        if wrong:
            self.fault("%s: %s: %r %r" % (wrong, words, ran.out[:300], ran.err[:300]), given)
        return ran

    def fault(self, text, given=b""):
        self.outcome.fault(self.index, text, given)

    def count(self, title, ran):
        said = ran.err.decode(errors="replace").replace("chargectl: ", "").split()[:2]
        told = {0: "done", 2: "usage"}.get(ran.status, " ".join(said))
        self.outcome.answers[title, told] += 1

    def hold(self, title, given, ran, want):
        """Counts a command, which has to end so."""
        self.count(title, ran)
        if ran != want:
            self.fault("%s: %r in place of %r" % (title, ran, want), given)

    def end_of(self, dump, layout, stop, out):
        noticed = formats.LAYOUT if formats.is_misread(dump, layout) else b""
        if stop == "END":
            torn = formats.TORN if formats.is_torn(dump, layout) else b""
            return Ran(0, out, noticed or torn)
        return Ran(3, out, b"chargectl: %s\n" % stop.lower().encode() + noticed)

    def dump(self, rng):
        layout, dump = inputs.dump(rng)
        path = self.folder / "dump"
        path.write_bytes(dump)
        is_named = layout == "bdw" or rng.random() < 0.5
        return dump, path, layout, ["--layout", layout] if is_named else []

    def check(self, rng):
        dump, path, layout, words = self.dump(rng)
        out, stop = formats.check_list(dump, layout)
        ran = self.run(dump, "check", path, *words)
        self.hold("check", dump, ran, self.end_of(dump, layout, stop, out))

    def import_dump(self, rng):
        dump, path, layout, words = self.dump(rng)
        line, stop, new = self.model.receipt(dump, layout)
        ran = self.run(dump, "import", self.book, path, *words)
        self.hold("import", dump, ran, self.end_of(dump, layout, stop, line))
        self.model.held |= new

    def trial(self, rng):
        dump, path, layout, words = self.dump(rng)
        line, stop, _ = formats.Books("0000000").receipt(dump, layout)
        for name in ("--cpu", "--excp", "--record"):
            if rng.random() < 0.5:
                words += [name, rng.choice(("0", "1", "20000", "100000000"))]
        ran = self.run(dump, "trial", *words, stdin=path)
        self.hold("trial", dump, ran, self.end_of(dump, layout, stop, ran.out))
        if not ran.out.startswith(line) or not formats.OF_COMMANDS["trial"].fullmatch(ran.out):
            self.fault("trial: %r" % ran.out, dump)

    def tariff(self, rng):
        file, path = inputs.tariff(rng), self.folder / "tariff"
        path.write_bytes(file)
        tried = self.try_out(file, "tariff", self.book, path) if rng.random() < 0.3 else None
        ran = self.run(file, "tariff", self.book, path)
        self.count("tariff", ran)
        if tried is not None and not self.is_tried(tried, ran):
            self.fault("dry run: %r and then %r" % (tried, ran), file)
        if formats.FAR in ran.err and not (ran.out == b"DONE\n" and formats.may_be_far(file)):
            self.fault("far: %r" % (ran,), file)
        answers = (b"DONE\n", b"ALREADY\n") if ran.status == 0 else (b"",)
        if ran.out not in answers or ran.status not in (0, 3):
            self.fault("tariff: %r" % (ran,), file)
        if len(file) < 10_000 and not formats.is_toml(file) and ran.err != b"chargectl: tariff 1\n":
            self.fault("no TOML: %r" % (ran,), file)
        if rng.random() < 0.5:
            self.what_if(rng, file, path)

    def try_out(self, given, *words):
        """A dry run of a ruling, of which nothing is kept."""
        before, beside = self.book.read_bytes(), os.listdir(self.folder)
        tried = self.run(given, *words, "--dry-run")
        self.count("dry run", tried)
        if self.book.read_bytes() != before or os.listdir(self.folder) != beside:
            self.fault("a dry run left something: %r" % (tried,), given)
        return tried

    def is_tried(self, tried, ran):
        """A dry run was answered as the ruling then was, and refused and noticed as it was."""
        if ran.status != 0:
            return tried == ran
        answered = formats.OF_COMMANDS["dry-run"].fullmatch(tried.out)
        return answered and tried.out.split(b"\n")[0].endswith(b" " + ran.out.rstrip(b"\n")) and (
            tried.status, tried.err) == (ran.status, ran.err)

    def what_if(self, rng, file, path):
        """The same file is tried: what is refused then has no answer, and nothing is kept of it."""
        name, words = rng.choice((("what-if", []), ("what-if-csv", ["--csv"])))
        before = self.book.read_bytes()
        period = rng.choice(("1", "2", "3"))
        ran = self.run(file, "statement", self.book, period, "--tariff", path, *words)
        self.count("what-if", ran)
        is_told = ran.status == 0 and formats.OF_COMMANDS[name].fullmatch(ran.out)
        if not is_told and (ran.out or ran.status != 3) or self.book.read_bytes() != before:
            self.fault("what-if: %r" % (ran,), file)
        if ran.status == 0 and (period == "3" or formats.is_no_tariff(file)):
            self.fault("what-if of no period, or by no tariff: %r" % (ran,), file)

    def choose(self, rng):
        """Choices by a list, or a dry run of them. Of names that no record has the first is refused."""
        data, path = inputs.names(rng), self.folder / "names"
        path.write_bytes(data)
        before, tried = self.book.read_bytes(), rng.choice(((), ("--dry-run",)))
        ran = self.run(data, "choose", self.book, "--from", path, *tried)
        self.count("choose", ran)
        names, wrong = formats.listed(data)
        told = ran.out.splitlines(True)
        if wrong:
            is_right = ran == Ran(3, b"", b"chargectl: word line %d\n" % wrong)
        elif not names:
            is_right = ran == Ran(0, b"", b"")
        elif names[0][1].lower() != formats.HELD_RECORD:
            is_right = ran == Ran(3, b"", b"chargectl: ledger 12 line %d\n" % names[0][0])
        else:
            is_right = all(line in (b"DONE\n", b"ALREADY\n") for line in told) and (
                ran.status == 0 and len(told) == len(names)
                or ran.status == 3 and len(told) < len(names)
                and ran.err.endswith(b" line %d\n" % names[len(told)][0]))
        may_change = told and not tried
        if not is_right or not may_change and self.book.read_bytes() != before:
            self.fault("choose: %r" % (ran,), data)

    def words(self, rng):
        words = inputs.words(rng)
        ran = self.run(b"\0".join(words), *words, cwd=self.words_at)
        self.count("words", ran)
        forms = formats.OF_COMMANDS.values()
        if ran.status == 0 and not any(form.fullmatch(ran.out) for form in forms):
            self.fault("words: %r: %r" % (words, ran.out), b"\0".join(words))
        if [name for name in os.listdir(self.words_at) if name.endswith(formats.LOG_NAMES)]:
            self.fault("words: %r made a log" % words, b"\0".join(words))

    def damaged_books(self, rng):
        """A command on books that are damaged, some with a log beside them."""
        book = self.place / "book"
        shutil.rmtree(self.place)
        self.place.mkdir()
        file, log = (self.logged, self.log) if rng.random() < 0.3 else (self.file, None)
        if log is None or rng.random() < 0.3:
            file = inputs.book(rng, file)
        beside = log and rng.choice((log, inputs.book(rng, log), inputs.noise(rng)))
        if rng.random() < 0.05:
            beside = rng.choice((self.file, inputs.other_log(rng)))
        if beside is not None:
            pathlib.Path(str(book) + "-wal").write_bytes(beside)
        book.write_bytes(file)
        if rng.random() < 0.1:
            self.serve_damaged(book, file)
            return
        title, form, *words = rng.choice(self.asked_of_books())
        ran = self.run(file, title, book, *words)
        self.count("damaged books", ran)
        self.kept_logs(title, ran, file, book, beside)
        if ran.status not in (0, 3, 4):
            self.fault("damaged books: %s: %r" % (title, ran), file)
        if (ran.out or ran.status == 0) and not formats.OF_DAMAGED[form].fullmatch(ran.out):
            self.fault("damaged books: %s: %r" % (title, ran), file)
        if beside is None:
            self.left_behind(title, ran, file, book)

    def kept_logs(self, title, ran, file, book, beside):
        """What became of the file at the log's name. One that holds nothing of the books is kept,
        byte for byte, and told. Books are not touched, nor are those that they lie beside. A whole
        log is not kept."""
        there, kept = (pathlib.Path(str(book) + tail) for tail in ("-wal", "-wal-kept"))
        if beside is None or not formats.may_be_books(file):
            return
        if formats.may_be_books(beside):
            was_left = there.exists() and (there.read_bytes(), book.read_bytes()) == (beside, file)
            if not was_left or (ran.out, ran.err) != (b"", b"chargectl: exists\n"):
                self.fault("books as a log: %s: %r" % (title, ran), beside)
        elif kept.exists():
            is_whole = kept.read_bytes() == beside != self.log
            if not is_whole or not ran.err.endswith(formats.LOG):
                self.fault("a log was kept: %s: %r" % (title, ran), beside)
        elif formats.is_no_log(beside):
            self.fault("a log was not kept: %s: %r" % (title, ran), beside)

    def serve_damaged(self, book, file):
        """A server for damaged books gives answers of some status that the formats name, or none
        where it can't have the books, or not again after their store failed."""
        requests = get(b"/statement/2"), post(FEBRUARY), get(b"/disputes"), get(b"/"), get(b"/period/1"), get(b"/periods")
        try:
            server = Server(book, len(requests))
            for request in requests:
                answer, line = server.asked(request), server.line()
                self.outcome.answers["damaged books served", line] += 1
                if not formats.ANSWER.match(answer) or line != "SERVED %s" % answer[9:12].decode():
                    self.fault("damaged books: %s with %r" % (line, answer[:300]), file)
            status = server.process.wait(MOST_SECONDS)
        except Broken as broken:
            status = broken.status
            self.outcome.answers["damaged books served", "status %s" % status] += 1
        # 3: what lies at the name of their log is somebody's.
        if status not in (0, 3, 4):
            self.fault("damaged books: the server ended with status %s" % status, file)

    def asked_of_books(self):
        """Commands with the forms of what they print."""
        name = hashlib.sha256(inputs.make.RIGHT).hexdigest()
        tariff, month, february = (
            SAMPLES / name for name in ("february.toml", "month.smf", "february.smf"))
        return (("audit", "audit"), ("audit", "audit"), ("disputes", "disputes"),
                ("disputes", "disputes-csv", "--csv"), ("record", "record", name),
                ("rulings", "rulings"), ("journal", "journal"), ("journal", "journal-csv", "--csv"), ("periods", "periods"), ("tariff-text", "tariff-text", "2024-01-01"),
                ("adopt", "ruling"), ("choose", "ruling", name), ("choose", "ruling", name, "--none"),
                ("choose", "dry-run", name, "--none", "--dry-run"), ("choose", "withheld", "--none", "--dump", month),
                ("tariff", "ruling", tariff, "--replace"),
                ("credit", "ruling", "2", "LEDGER", "12.5000", "tape lost, ticket 4711"),
                ("credit", "dry-run", "2", "LEDGER", "12.5000", "courier", "--dry-run"), ("statement", "statement", "1"),
                ("statement", "statement", "2"), ("statement", "statement-csv", "1", "--csv"),
                ("statement", "what-if", "1", "--tariff", tariff),
                ("statement", "what-if-csv", "2", "--csv", "--tariff", tariff),
                ("details", "details", "1"), ("details", "details-csv", "2", "--csv"), ("upgrade", "upgrade"),
                ("bill", "bill", "2"), ("bill", "bill-csv", "1", "--csv"),
                ("bill", "centre-bill", "1", "--centre", "LEDGER"),
                ("bill", "centre-bill-csv", "2", "--csv", "--centre", "LEDGER"),
                ("bill", "bill-page", "1", "--html", "--centre", "LEDGER"), ("bill", "bill-page", "2", "--centre", "LEDGER", "--html"),
                ("focus", "focus", "1"), ("focus", "focus", "2"), ("coverage", "coverage", "1"),
                ("coverage", "coverage-csv", "2", "--csv"), ("page", "page", "1"), ("page", "page", "2"),
                ("adjustments", "adjustments", "2"),
                ("adjustments", "adjustments-csv", "2", "--csv"), ("close", "ruling", "2", "2024-02-29"),
                ("close", "dry-run", "2", "2024-02-29", "--dry-run"),
                ("tariff", "ruling", tariff), ("import", "import", month),
                ("import", "import", february))

    def left_behind(self, title, ran, file, book):
        """Books are one file after a command; a refused one, or an audit, changed no byte."""
        left = os.listdir(self.place)
        if left != ["book"]:
            self.fault("damaged books: %s left %s: %r" % (title, left, ran), file)
        may_change = ran.status == 0 and title != "audit" or title == "import"
        if not may_change and book.read_bytes() != file:
            self.fault("damaged books: %s changed them: %r" % (title, ran), file)

    def one(self, seed, index):
        self.index, rng = index, inputs.seeded(seed, index)
        ways = ((0.26, self.check), (0.42, self.trial), (0.58, self.import_dump),
                (0.70, self.tariff), (0.76, self.choose), (0.90, self.damaged_books), (1, self.words))
        at = rng.random()
        next(way for most, way in ways if at < most)(rng)


def command_all(folder, seed, indexes, outcome):
    """The part of a batch that goes by commands."""
    commands = Commands(folder, outcome)
    for index in indexes:
        commands.one(seed, index)
    audited(commands.book, commands.model, outcome, indexes[-1])
