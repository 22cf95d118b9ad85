//! Books in a file, by SQLite's own library: the tables of docs/FORMATS.md, one commit for the records that one read of
//! the dump completes, a log that is written ahead and synced at each commit. The tariff is one price for all records.

use crate::books::{Rates, Receipt, Sums, Usage};
use crate::detailed::{self, Details, Place};
use crate::dumps::{Dump, Stop};
use crate::records::{Class, class};
use crate::repriced::Joined;
use crate::sha256::sha256_bytes;
use crate::sqlite::{Database, Statement, Value};
use std::io;
use std::io::Read;

const TABLES: &str = "
    CREATE TABLE book (id INT NOT NULL PRIMARY KEY, rule INT NOT NULL, adopted INT NOT NULL, held INT NOT NULL,
        amount INT NOT NULL) STRICT, WITHOUT ROWID;
    CREATE TABLE record (name BLOB NOT NULL PRIMARY KEY, ident BLOB NOT NULL, data BLOB NOT NULL, day INT NOT NULL,
        shift TEXT NOT NULL, centre TEXT NOT NULL, cpu INT NOT NULL, blocks INT NOT NULL, amount INT NOT NULL,
        charged INT NOT NULL, posted INT NOT NULL) STRICT, WITHOUT ROWID;
    CREATE TABLE day_sum (period INT NOT NULL, day INT NOT NULL, centre TEXT NOT NULL, shift TEXT NOT NULL,
        count INT NOT NULL, cpu INT NOT NULL, blocks INT NOT NULL, amount INT NOT NULL,
        PRIMARY KEY (period, day, centre, shift)) STRICT, WITHOUT ROWID;
    CREATE INDEX record_ident ON record (ident);
    CREATE INDEX record_charged ON record (charged, ident);
    INSERT INTO book (id, rule, adopted, held, amount) VALUES (1, 1, 0, 0, 0);";

const CENTRE: &str = "UNASSIGNED";
const SHIFT: &str = "BASE";

pub struct Filed {
    begin: Statement,
    commit: Statement,
    find: Statement,
    sharing: Statement,
    insert: Statement,
    unmark: Statement,
    details: Details,
    set_book: Statement,
    find_day: Statement,
    insert_day: Statement,
    set_day: Statement,
    held: i64,
    total: i64,
    /// Records are held that no commit has.
    is_begun: bool,
}

/// Makes the tables where the file is new, and syncs each commit.
pub fn open(path: &str) -> Database {
    let is_new = !std::path::Path::new(path).exists();
    let db = Database::open(path);
    db.run("PRAGMA journal_mode = WAL; PRAGMA synchronous = FULL;");
    if is_new {
        db.run(TABLES);
        db.run(detailed::TABLE);
    }
    db
}

/// Where a record is counted: in the one centre and shift.
fn place(name: &[u8], day: i64, cpu: i64, blocks: i64, amount: i64) -> Place<'_> {
    Place { name, day, centre: CENTRE, shift: SHIFT, cpu, blocks, amount }
}

impl Filed {
    pub fn over(db: &Database) -> Filed {
        let sums = db.prepare("SELECT held, amount FROM book WHERE id = 1").query(&[], |row| (row.int(0), row.int(1)));
        Filed {
            begin: db.prepare("BEGIN IMMEDIATE"),
            commit: db.prepare("COMMIT"),
            find: db.prepare("SELECT data FROM record WHERE name = ?1"),
            sharing: db.prepare("SELECT name, charged, day, cpu, blocks, amount, data FROM record WHERE ident = ?1 LIMIT 2"),
            insert: db.prepare("INSERT INTO record VALUES (?1, ?2, ?3, ?4, ?5, ?6, ?7, ?8, ?9, ?10, 0)"),
            details: Details::of(db),
            unmark: db.prepare("UPDATE record SET charged = 0 WHERE name = ?1"),
            set_book: db.prepare("UPDATE book SET held = ?1, amount = ?2 WHERE id = 1"),
            find_day: db.prepare(
                "SELECT count, cpu, blocks, amount FROM day_sum
                    WHERE period = 1 AND day = ?1 AND centre = ?2 AND shift = ?3",
            ),
            insert_day: db.prepare("INSERT INTO day_sum VALUES (1, ?1, ?2, ?3, ?4, ?5, ?6, ?7)"),
            set_day: db.prepare(
                "UPDATE day_sum SET count = ?4, cpu = ?5, blocks = ?6, amount = ?7
                    WHERE period = 1 AND day = ?1 AND centre = ?2 AND shift = ?3",
            ),
            held: sums[0].0,
            total: sums[0].1,
            is_begun: false,
        }
    }

    /// Adds a number of records with their sums to a day's row, or subtracts them.
    fn change_day(&self, day: i64, count: i64, cpu: i64, blocks: i64, amount: i64) {
        let key = [Value::Int(day), Value::Text(CENTRE), Value::Text(SHIFT)];
        let found = self.find_day.query(&key, |row| [row.int(0), row.int(1), row.int(2), row.int(3)]);
        let [day, centre, shift] = key;
        let changed = |old: [i64; 4]| {
            let sums = [old[0] + count, old[1] + cpu, old[2] + blocks, old[3] + amount];
            let [count, cpu, blocks, amount] = sums.map(Value::Int);
            [day, centre, shift, count, cpu, blocks, amount]
        };
        match found.first() {
            None => self.insert_day.execute(&changed([0; 4])),
            Some(old) => self.set_day.execute(&changed(*old)),
        }
    }

    /// Begins a transaction, where none is begun.
    fn begin(&mut self) {
        if !self.is_begun {
            self.begin.execute(&[]);
            self.is_begun = true;
        }
    }

    /// Commits what was written since the last commit.
    fn commit(&mut self) {
        if self.is_begun {
            self.commit.execute(&[]);
            self.is_begun = false;
        }
    }

    /// Holds a record, and commits nothing; false where it is held already.
    fn hold(&mut self, usage: &Usage) -> bool {
        let name = sha256_bytes(usage.data());
        if !self.find.query(&[Value::Blob(&name)], |row| row.bytes(0)).is_empty() {
            return false;
        }
        let ident = Value::Blob(&usage.identity);
        let shared = self.sharing.query(&[ident], |row| {
            (row.bytes(0), row.int(1), row.int(2), row.int(3), row.int(4), row.int(5), row.bytes(6))
        });
        let Sums { cpu, blocks, amount, .. } = usage.sums;
        let (day, cpu, blocks, amount) = (usage.day.number(), cpu as i64, blocks as i64, amount as i64);
        self.begin();
        self.insert.execute(&[
            Value::Blob(&name),
            Value::Blob(&usage.identity),
            Value::Blob(usage.data()),
            Value::Int(day),
            Value::Text(SHIFT),
            Value::Text(CENTRE),
            Value::Int(cpu),
            Value::Int(blocks),
            Value::Int(amount),
            Value::Int(i64::from(shared.is_empty())),
        ]);
        match &shared[..] {
            [] => {
                self.change_day(day, 1, cpu, blocks, amount);
                self.details.insert(&place(&name, day, cpu, blocks, amount), &usage.record);
            }
            [(name, 1, day, cpu, blocks, amount, data)] => {
                self.unmark.execute(&[Value::Blob(name)]);
                self.change_day(*day, -1, -cpu, -blocks, -amount);
                self.details.delete(&place(name, *day, *cpu, *blocks, *amount), Joined::new().with(data));
            }
            _ => {}
        }
        self.held += 1;
        self.total += amount;
        self.set_book.execute(&[Value::Int(self.held), Value::Int(self.total)]);
        true
    }

    pub fn import<R: Read>(&mut self, dump: &mut Dump<R>, rates: &Rates) -> io::Result<(Receipt, Stop)> {
        let mut receipt = Receipt::default();
        let mut reads = dump.reads();
        let stop = loop {
            let next = dump.next()?.map(|record| record.map(<[u8]>::to_vec));
            if dump.reads() != reads {
                self.commit();
                reads = dump.reads();
            }
            let record = match &next {
                Ok(Some(record)) => &record[..],
                Ok(None) => break Stop::End,
                Err(fault) => break Stop::Frame(*fault),
            };
            match class(record) {
                Class::DumpHeader => receipt.headers += 1,
                Class::DumpTrailer => receipt.trailers += 1,
                Class::DataLost => receipt.lost += 1,
                Class::Other => receipt.other += 1,
                Class::Continuation => receipt.continued += 1,
                Class::Damaged(_) => receipt.damaged += 1,
                Class::Usage if self.hold(&Usage::read(record, rates)) => receipt.kept += 1,
                Class::Usage => receipt.known += 1,
            }
        };
        self.commit();
        Ok((receipt, stop))
    }
}
