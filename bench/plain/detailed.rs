//! The details of a period, by SQLite's own library: the rows of `detail` of its days, in one walk and one at a time. And that
//! table of books that lack it, made and filled in one transaction.

use crate::books::{Sums, identification};
use crate::numbers::{number2, number4};
use crate::records::STEP_END;
use crate::repriced::{BATCH, Joined, text};
use crate::sqlite::{Database, Statement, Value};
use crate::texts::{date_text, money, shown};
use crate::whatif::title;
use std::collections::HashMap;
use std::io;
use std::io::Write;

/// What `upgrade` makes, and new books have.
pub const TABLE: &str = "
    CREATE TABLE detail (day INT NOT NULL, centre TEXT NOT NULL, shift TEXT NOT NULL, time INT NOT NULL, name BLOB NOT NULL,
        job BLOB NOT NULL, program BLOB NOT NULL, job_id BLOB NOT NULL, step INT, cpu INT NOT NULL, blocks INT NOT NULL,
        amount INT NOT NULL, PRIMARY KEY (day, centre, shift, time, name)) STRICT, WITHOUT ROWID;
    PRAGMA user_version = 2;";

/// A record whose step is of no number: a job's end.
const NO_STEP: i64 = -1;

/// Writes the row of a record that is counted.
pub struct Details {
    insert: Statement,
    delete: Statement,
}

/// Where a record is counted, and at which price.
pub struct Place<'a> {
    pub name: &'a [u8],
    pub day: i64,
    pub centre: &'a str,
    pub shift: &'a str,
    pub cpu: i64,
    pub blocks: i64,
    pub amount: i64,
}

impl Details {
    pub fn of(db: &Database) -> Details {
        Details {
            insert: db.prepare(
                "INSERT INTO detail VALUES (?1, ?2, ?3, ?4, ?5, ?6, ?7, ?8, nullif(?9, -1), ?10, ?11, ?12)",
            ),
            delete: db.prepare("DELETE FROM detail WHERE day = ?1 AND centre = ?2 AND shift = ?3 AND time = ?4 AND name = ?5"),
        }
    }

    pub fn insert(&self, place: &Place, record: &[u8]) {
        let section = identification(record);
        let step = match number2(record, 22) {
            STEP_END => i64::from(number2(section, 40)),
            _ => NO_STEP,
        };
        self.insert.execute(&[
            Value::Int(place.day),
            Value::Text(place.centre),
            Value::Text(place.shift),
            Value::Int(i64::from(number4(record, 6))),
            Value::Blob(place.name),
            Value::Blob(&section[..8]),
            Value::Blob(&section[8..16]),
            Value::Blob(&section[32..40]),
            Value::Int(step),
            Value::Int(place.cpu),
            Value::Int(place.blocks),
            Value::Int(place.amount),
        ]);
    }

    pub fn delete(&self, place: &Place, record: &[u8]) {
        self.delete.execute(&[
            Value::Int(place.day),
            Value::Text(place.centre),
            Value::Text(place.shift),
            Value::Int(i64::from(number4(record, 6))),
            Value::Blob(place.name),
        ]);
    }
}

/// The first and the last day of a period.
fn days(db: &Database, period: i64) -> [Value<'static>; 2] {
    let closed = db.prepare("SELECT through FROM closed WHERE period = ?1");
    let through = |period| closed.query(&[Value::Int(period)], |row| row.int(0)).first().copied();
    [Value::Int(through(period - 1).unwrap_or(i64::MIN)), Value::Int(through(period).unwrap_or(i64::MAX))]
}

fn seconds(hundredths: i64) -> String {
    format!("{}.{:02}", hundredths / 100, hundredths % 100)
}

fn time_of_day(hundredths: i64) -> String {
    let (minutes, rest) = (hundredths / 6_000, hundredths % 6_000);
    format!("{:02}:{:02}:{:02}.{:02}", minutes / 60, minutes % 60, rest / 100, rest % 100)
}

/// Writes a line: which work it is stands between the columns of a statement.
fn write_line(out: &mut impl Write, place: [&str; 3], job: [&str; 4], work: [&str; 4], name: &str) -> io::Result<()> {
    let ([day, centre, shift], [time, job, program, job_id]) = (place, job);
    let [step, cpu, blocks, amount] = work;
    write!(out, "{day:10} {centre:16} {shift:16} {time:11} {job:8} {program:8} {job_id:8} ")?;
    writeln!(out, "{step:>8} {cpu:>19} {blocks:>18} {amount:>21}{name}")
}

fn write_detail(out: &mut impl Write, row: &Statement) -> io::Result<()> {
    let step = match row.int(7) {
        NO_STEP => String::from("-"),
        step => step.to_string(),
    };
    let name: String = row.lent(11).iter().map(|byte| format!("{byte:02x}")).collect();
    write_line(
        out,
        [&date_text(row.int(0) as u64), text(row, 1), text(row, 2)],
        [&time_of_day(row.int(3)), &shown(row.lent(4)), &shown(row.lent(5)), &shown(row.lent(6))],
        [&step, &seconds(row.int(8)), &row.int(9).to_string(), &money(row.int(10) as u64)],
        &format!(" {name}"),
    )
}

/// Writes the details of a period.
pub fn write_details(out: &mut impl Write, db: &Database, period: i64) -> io::Result<()> {
    db.run("BEGIN");
    let details = db.prepare(
        "SELECT day, centre, shift, time, job, program, job_id, ifnull(step, -1), cpu, blocks, amount, name FROM detail
            WHERE day > ?1 AND day <= ?2 ORDER BY day, centre, shift, time, name",
    );
    writeln!(out, "DETAILS {}", title(db, period))?;
    write_line(out, ["DAY", "CENTRE", "SHIFT"], ["TIME", "JOB", "PROGRAM", "JOBID"], ["STEP", "CPU", "BLOCKS", "AMOUNT"], " NAME")?;
    let (mut total, mut written) = (Sums::default(), Ok(()));
    details.each(&days(db, period), |row| {
        let number = |at| row.int(at) as u64;
        total.add(&Sums { count: 1, cpu: number(8), blocks: number(9), amount: number(10) });
        if written.is_ok() {
            written = write_detail(out, row);
        }
    });
    db.run("COMMIT");
    written?;
    let numbers = [total.count.to_string(), seconds(total.cpu as i64), total.blocks.to_string(), money(total.amount)];
    write_line(out, ["TOTAL", "", ""], [""; 4], numbers.each_ref().map(String::as_str), "")
}

/// By name, how often the lines of all periods reverse a record, less how often they add it.
fn reversed(db: &Database) -> HashMap<Vec<u8>, i64> {
    let mut lines = HashMap::new();
    db.prepare("SELECT name, plus FROM line").each(&[], |row| {
        *lines.entry(row.bytes(0)).or_default() += 1 - 2 * row.int(1);
    });
    lines
}

/// Fills the table: a row for each record that some period counts.
fn fill(db: &Database) {
    let (details, reversed, mut joined) = (Details::of(db), reversed(db), Joined::new());
    let behind = db.prepare(
        "SELECT name, charged, data, day, centre, shift, cpu, blocks, amount FROM record WHERE name > ?1 ORDER BY name LIMIT ?2",
    );
    let mut last: Vec<u8> = Vec::new();
    loop {
        let (mut read, mut name) = (0, Vec::new());
        behind.each(&[Value::Blob(&last), Value::Int(BATCH as i64)], |row| {
            (read, name) = (read + 1, row.bytes(0));
            if row.int(1) + reversed.get(&name).unwrap_or(&0) == 1 {
                let (day, cpu, blocks, amount) = (row.int(3), row.int(6), row.int(7), row.int(8));
                let place = Place { name: &name, day, centre: text(row, 4), shift: text(row, 5), cpu, blocks, amount };
                details.insert(&place, joined.with(row.lent(2)));
            }
        });
        if read == 0 {
            return;
        }
        last = name;
    }
}

/// Brings books of form 0 over: the answer.
pub fn upgrade(db: &Database) -> &'static str {
    if crate::repriced::number(db, "PRAGMA user_version", &[]) == 2 {
        return "ALREADY";
    }
    db.run("BEGIN IMMEDIATE");
    db.run(TABLE);
    fill(db);
    db.run("COMMIT");
    "UPGRADED 2"
}
