#!/usr/bin/env python3
"""Keeps books in a file by Python's `sqlite3`, as a script in an office would: `filed.py BOOK DUMP TARIFF` imports a dump of
segments into the tables of docs/FORMATS.md, one commit for the records that end in 65,536 bytes of the dump, a log that is
written ahead and synced at each commit, and prints the receipt line. Period 1 is open. It parses by samples/office.py."""
import pathlib
import sqlite3
import sys

sys.dont_write_bytecode = True
sys.path.insert(0, str(pathlib.Path(__file__).resolve().parent.parent.parent / "samples"))
import office

TABLES = """
CREATE TABLE book (id INT NOT NULL PRIMARY KEY, rule INT NOT NULL, adopted INT NOT NULL, held INT NOT NULL,
    amount INT NOT NULL) STRICT, WITHOUT ROWID;
CREATE TABLE record (name BLOB NOT NULL PRIMARY KEY, ident BLOB NOT NULL, data BLOB NOT NULL, day INT NOT NULL,
    shift TEXT NOT NULL, centre TEXT NOT NULL, cpu INT NOT NULL, blocks INT NOT NULL, amount INT NOT NULL,
    charged INT NOT NULL, posted INT NOT NULL) STRICT, WITHOUT ROWID;
CREATE TABLE day_sum (period INT NOT NULL, day INT NOT NULL, centre TEXT NOT NULL, shift TEXT NOT NULL, count INT NOT NULL,
    cpu INT NOT NULL, blocks INT NOT NULL, amount INT NOT NULL, PRIMARY KEY (period, day, centre, shift)) STRICT, WITHOUT ROWID;
CREATE INDEX record_ident ON record (ident);
CREATE INDEX record_charged ON record (charged, ident);
INSERT INTO book (id, rule, adopted, held, amount) VALUES (1, 1, 0, 0, 0);
"""
# How many bytes a read asks for.
PIECE = 65_536

DAY_KEY = "period = 1 AND day = ? AND centre = ? AND shift = ?"


def add_day(db, key, change):
    """Adds to a day's row, or subtracts from it."""
    if db.execute("SELECT count FROM day_sum WHERE " + DAY_KEY, key).fetchone() is None:
        db.execute("INSERT INTO day_sum VALUES (1, ?, ?, ?, ?, ?, ?, ?)", key + change)
    else:
        db.execute("UPDATE day_sum SET count = count + ?, cpu = cpu + ?, blocks = blocks + ?, amount = amount + ? WHERE "
                   + DAY_KEY, change + key)


def hold(db, record, data):
    """Holds a record, in the transaction that is begun or a new one; false where it is held already."""
    name, day = bytes.fromhex(record.name), (record.day - office.EPOCH).days
    if db.execute("SELECT data FROM record WHERE name = ?", (name,)).fetchone():
        return False
    sharing = db.execute("SELECT name, charged, day, centre, shift, cpu, blocks, amount FROM record WHERE ident = ? LIMIT 2",
                         (record.identity,)).fetchall()
    if not db.in_transaction:
        db.execute("BEGIN IMMEDIATE")
    db.execute("INSERT INTO record VALUES (?, ?, ?, ?, ?, ?, ?, ?, ?, ?, 0)",
               (name, record.identity, data, day, record.shift, record.centre, record.cpu, record.blocks, record.amount,
                not sharing))
    if not sharing:
        add_day(db, (day, record.centre, record.shift), (1, record.cpu, record.blocks, record.amount))
    elif len(sharing) == 1:
        other, _, day, centre, shift, cpu, blocks, amount = sharing[0]
        db.execute("UPDATE record SET charged = 0 WHERE name = ?", (other,))
        add_day(db, (day, centre, shift), (-1, -cpu, -blocks, -amount))
    db.execute("UPDATE book SET held = held + 1, amount = amount + ? WHERE id = 1", (record.amount,))
    return True


def main(book, dump, tariff):
    is_new = not pathlib.Path(book).exists()
    db = sqlite3.connect(book, isolation_level=None)
    db.execute("PRAGMA journal_mode = WAL")
    db.execute("PRAGMA synchronous = FULL")
    if is_new:
        db.executescript(TABLES)
    prices = office.Tariff(pathlib.Path(tariff).read_bytes())
    counts = dict.fromkeys("KEPT KNOWN UNPRICED OTHER HEADERS TRAILERS LOST CONTINUED DAMAGED".split(), 0)
    taken = 0
    for data in office.joined(pathlib.Path(dump).read_bytes()):
        # A segment's descriptor has four bytes: here each record is one segment.
        pieces, taken = taken // PIECE, taken + 4 + len(data)
        if taken // PIECE != pieces and db.in_transaction:
            db.execute("COMMIT")
        kind = office.kind_of(data)
        if kind == "USAGE":
            kind = "KEPT" if hold(db, prices.record(data), data) else "KNOWN"
        counts[kind] += 1
    if db.in_transaction:
        db.execute("COMMIT")
    db.close()
    print(" ".join("%s %d" % count for count in counts.items()) + " STOP END")


main(*sys.argv[1:])
