"""Books for `damage`, and changes of a row or of some bytes of them, each by its number."""
import contextlib
import datetime
import hashlib
import random
import sqlite3
import subprocess
import sys

from dumps import make, with_accounts
from loopback import CHARGECTL

# How long a command may take, in seconds.
MOST_SECONDS = 20

# Of each tree how many columns its rows have, and how many of them are its key.
TREES = {"book": (5, 1), "tariff": (2, 1), "closed": (2, 1), "record": (11, 1), "day_sum": (8, 4), "line": (3, 2),
         "record_ident": (2, 2), "record_charged": (3, 3), "choice": (3, 1), "choice_name": (2, 2), "detail": (12, 5)}

def ran(*words):
    """What became of a command: its status, and all that it wrote."""
    try:
        ended = subprocess.run([str(word) for word in (CHARGECTL, *words)], capture_output=True, timeout=MOST_SECONDS)
    except subprocess.TimeoutExpired:
        return None, b"", b""
    return ended.returncode, ended.stdout, ended.stderr


def chargectl(*words):
    """A command that has to do its work."""
    status, output, errors = ran(*words)
    if status != 0:
        sys.exit("damage: status %s of %s: %r" % (status, words, errors))
    return output


# ---- The books

# No byte could be left out: prices, a shift whose first and last minutes have work, and centres that have work.
FIRST = """effective="2024-01-01"
[rates]
step_cpu=20000
step_excp=500
step_record=100
job_cpu=300
job_excp=20
job_record=2500
[[shift]]
name="NIGHT"
days=[1,2,3,4,5]
from="18:00"
to="24:00"
percent=50
[[centre]]
name="AUDIT"
account=2
prefix="AB"
[[centre]]
name="PAYROLL"
job="PAY\""""
LATE = FIRST.replace("2024-01-01", "2024-01-15").replace("20000", "31000").replace('"NIGHT"', '"LATE"')
LATE = LATE.replace('job="PAY"', 'job="LEDGER"').replace('"PAYROLL"', '"LEDGER"')
TRIED = FIRST.replace("2024-01-01", "2024-03-01").replace("20000", "50000")

# A day of each week has work in the minutes about the shift's, and the ends of jobs; and the days of the closes.
WEEKS, CLOSES = (3, 17, 24, 38), (10, 20, 30)
LAST_DAY = 40


def step(day, job="PAYROLL1", **fields):
    """A record of that day of 2024, which is of another job id each day."""
    return make.work(job=job, day=day, job_id="JOB%05d" % day, tcb=1200 + 7 * day, blocks=900 + 13 * day, **fields)


def rival(record, more=1):
    """One that contradicts a record: of the same step, with more CPU time."""
    at = 160 - 4
    return record[:at] + (int.from_bytes(record[at:at + 4], "big") + more).to_bytes(4, "big") + record[at + 4:]


def rerun(day):
    """Two runs of one step: records of one identity by the first rule, and of two by the second."""
    return [step(day, job="RERUN", hour=11), step(day, job="RERUN", hour=11, minute=30, waited=30)]


def work_of(day):
    """What is dated on a day: work in the evening; and once a week more."""
    yield step(day, job=("PAYROLL1", "LEDGER01")[day % 2], hour=18)
    if day in WEEKS:
        yield step(day, job="STOCKUPD", step=2, hour=17, minute=59)
        yield step(day, job="LEDGER07", step=3, hour=23, minute=59)
        yield step(day, job="PAYROLL2", hour=9, subtype=5)
        yield with_accounts(step(day, job="TESTRUN", step=4, hour=10), make.name("A100", 4), make.name("ABCD", 4))


class Made:
    """Books that are made by commands."""

    def __init__(self, folder):
        self.folder, self.book, self.handed = folder, folder / "books", {}
        chargectl("init", self.book)

    def tariff(self, text):
        path = self.folder / "tariff"
        path.write_text(text)
        chargectl("tariff", self.book, path)

    def take(self, *records):
        path = self.folder / "dump"
        path.write_bytes(b"".join(map(make.segment, records)))
        chargectl("import", self.book, path)

    def choose(self, record):
        chargectl("choose", self.book, hashlib.sha256(record).hexdigest())

    def close(self, period):
        chargectl("close", self.book, period, datetime.date(2024, 1, CLOSES[period - 1]))


def days(first, last):
    return [record for day in range(first, last + 1) for record in work_of(day)]


def make_books(folder):
    """A file with some eighty records. The last choice is of a record that the adoption makes one of a kind, in the period
    of both: so neither can have been in another period."""
    books, paid, stock = Made(folder), step(3, job="STOCKUPD", step=2, hour=17, minute=59), step(6, hour=18)
    books.tariff(FIRST)
    books.take(*days(1, 14), rival(paid), step(4, job="LATE", step=5), rival(step(4, job="LATE", step=5)))
    books.choose(rival(paid))
    books.close(1)
    books.take(*days(15, 24), rival(stock), step(9, job="BEHIND"), step(12, job="TESTRUN", step=6))
    books.choose(rival(stock))
    books.tariff(LATE)
    books.close(2)
    books.take(*days(25, 34), step(18, job="BEHIND", step=7), rival(step(22, hour=18)), *rerun(28), *rerun(33))
    books.close(3)
    books.take(*days(35, LAST_DAY), rival(step(36, hour=18)), step(8, job="BEHIND", step=8), *rerun(39))
    books.choose(step(22, hour=18)), books.choose(rival(step(36, hour=18), 0)), books.choose(rerun(39)[0])
    chargectl("adopt", books.book)
    return books.book


# ---- Changed rows

def connected(path):
    db = sqlite3.connect(path, isolation_level=None)
    db.execute("PRAGMA synchronous = OFF")
    return contextlib.closing(db)


def opened_up(folder, book):
    """Of each tree a file in which its pages are also those of a table `part`, whose columns take any value, and of a table
    `wide`, which has a column more."""
    files = {}
    for tree, (width, key) in TREES.items():
        path = folder / ("part-" + tree)
        path.write_bytes(book.read_bytes())
        with connected(path) as db:
            [(root,)] = db.execute("SELECT rootpage FROM sqlite_schema WHERE name = ?", (tree,)).fetchall()
            db.execute("PRAGMA writable_schema = ON")
            for name, columns in ("part", columns_of(width)), ("wide", columns_of(width + 1)):
                words = name, ", ".join(columns), ", ".join(columns[:key])
                sql = "CREATE TABLE %s (%s, PRIMARY KEY (%s)) WITHOUT ROWID" % words
                db.execute("INSERT INTO sqlite_schema VALUES ('table', ?, ?, ?, ?)", (name, name, root, sql))
        files[tree] = path.read_bytes()
        path.unlink()
    return files


def columns_of(width):
    return ["c%d" % at for at in range(width)]


def near(rng, number):
    """Another number, mostly one near by, or the same as another type."""
    return rng.choice((number + 1, number - 1, -number, number + rng.randrange(-40, 41), number ^ 1 << rng.randrange(16),
                       rng.randrange(-2**63, 2**63), rng.randrange(10), float(number), str(number), None))


def bent(rng, data, piece):
    """Bytes or characters with one of them changed, or one less, or more."""
    at = rng.randrange(len(data) + 1)
    return rng.choice((data[:at] + piece + data[at + 1:], data[:at] + data[at + 1:], data[:at] + piece + data[at:], data[:at]))


def other(rng, value):
    """Another value, mostly one like it."""
    if isinstance(value, str):
        return rng.choice((bent(rng, value, chr(rng.randrange(1, 128))), bent(rng, value, " "), value.encode(), value.lower(), 0))
    if isinstance(value, bytes):
        changed = bent(rng, value, bytes((rng.randrange(256),)))
        return rng.choice((changed, changed, bytes(len(value)), value.decode("latin-1"), None))
    return near(rng, value or 0)


def is_same(one, two):
    return type(one) is type(two) and one == two


class Damage:
    """A change of one row of one tree, in a file in which its pages are a table's."""

    def __init__(self, rng, db, tree):
        self.rng, self.db, self.tree, (self.width, self.key) = rng, db, tree, TREES[tree]
        self.names = columns_of(self.width)
        self.rows = db.execute("SELECT %s FROM part" % ", ".join(self.names)).fetchall()
        self.row = rng.choice(self.rows)

    def put(self, row, at, value, table="part"):
        """A row has another value."""
        where = " AND ".join("%s IS ?" % name for name in self.names[:self.key])
        self.db.execute("UPDATE %s SET c%d = ? WHERE %s" % (table, at, where), (value, *row[:self.key]))

    def value(self):
        at = self.rng.randrange(self.width)
        column = [row[at] for row in self.rows]
        value = self.rng.choice((other(self.rng, self.row[at]), other(self.rng, self.row[at]), self.rng.choice(column)))
        if is_same(value, self.row[at]):
            return None
        self.put(self.row, at, value)
        return "column %d of %r is %r" % (at, self.row, value)

    def traded(self):
        """Two rows trade values. Their keys may be a part of it, so one has to be out of the way."""
        at, twin = self.rng.randrange(self.width), self.rng.choice(self.rows)
        if is_same(self.row[at], twin[at]):
            return None
        changed = [tuple(other[at] if column == at else value for column, value in enumerate(row))
                   for row, other in ((self.row, twin), (twin, self.row))]
        for row in self.row, twin:
            self.take(row)
        for row in changed:
            self.add(row)
        return "column %d of %r and %r" % (at, self.row, twin)

    def take(self, row):
        where = " AND ".join("%s IS ?" % name for name in self.names[:self.key])
        self.db.execute("DELETE FROM part WHERE " + where, row[:self.key])

    def add(self, row):
        self.db.execute("INSERT INTO part (%s) VALUES (%s)" % (", ".join(self.names), ", ".join("?" * self.width)), row)

    def gone(self):
        self.take(self.row)
        return "without %r" % (self.row,)

    def doubled(self):
        at = self.rng.randrange(self.key)
        value = self.rng.choice((other(self.rng, self.row[at]), self.rng.choice(self.rows)[at]))
        self.add(self.row[:at] + (value,) + self.row[at + 1:])
        return "%r also with %r in column %d" % (self.row, value, at)

    def wider(self):
        value = self.rng.choice((0, 1, "", b"", *self.row))
        self.put(self.row, self.width, value, "wide")
        return "%r with %r behind it" % (self.row, value)

    def make(self):
        """What was changed; None where nothing was, or where two rows would have one key."""
        kinds = [self.value] * 12 + [self.traded] * 3 + [self.gone] * 2 + [self.doubled] * 2 + [self.wider]
        self.db.execute("BEGIN")
        try:
            told = self.rng.choice(kinds)()
        except sqlite3.IntegrityError:
            told = None
        self.db.execute("COMMIT" if told else "ROLLBACK")
        return told and "%s: %s" % (self.tree, told)


def without_parts(db):
    db.execute("PRAGMA writable_schema = ON")
    db.execute("DELETE FROM sqlite_schema WHERE name IN ('part', 'wide')")


def with_another_row(files, number, path):
    """Writes a file in which a row was changed, and says which."""
    rng = random.Random("row %d" % number)
    while True:
        tree = rng.choice(list(TREES))
        path.write_bytes(files[tree])
        with connected(path) as db:
            told = Damage(rng, db, tree).make()
            if told:
                without_parts(db)
                return told


def with_another_page(file, number, path):
    """Writes a file in which a byte was changed, or four bytes, and says where."""
    rng = random.Random("page %d" % number)
    many = rng.choice((1, 4))
    at = rng.randrange(len(file) // many) * many
    data = file[at:at + many]
    while data == file[at:at + many]:
        data = rng.randbytes(many)
    path.write_bytes(file[:at] + data + file[at + many:])
    return "bytes from %d on are %s, and were %s" % (at, data.hex(), file[at:at + many].hex())
