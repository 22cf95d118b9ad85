//! The charge rows of a period by another tariff, by SQLite's own library: the records that the period counts are read in one
//! pass by name, one at a time, and each joins its row at the price that the tariff says. Nothing is written.

use crate::books::{MAX_TOTAL, Sums, measured};
use crate::repriced::{FULL, Joined};
use crate::sha256::sha256;
use crate::sqlite::{Database, Value};
use crate::tariffs::Tariff;
use crate::texts::{date_text, write_heading, write_row};
use std::collections::{BTreeMap, HashMap};
use std::io;
use std::io::Write;

/// Which records a period counts: those that are dated in it and were charged at its end.
struct Counted {
    /// The day of the close before the period, if there was one.
    last: Option<i64>,
    /// The day through which it was closed, if it was.
    through: Option<i64>,
    /// By name, the first line of each record that has one in a later period: whether it is a plus line.
    lines: HashMap<Vec<u8>, bool>,
}

impl Counted {
    fn of(db: &Database, period: i64) -> Counted {
        let closed = db.prepare("SELECT through FROM closed WHERE period = ?1");
        let through = |period| closed.query(&[Value::Int(period)], |row| row.int(0)).first().copied();
        let mut lines = HashMap::new();
        let later = db.prepare("SELECT name, plus FROM line WHERE period > ?1 ORDER BY period, name");
        later.each(&[Value::Int(period)], |row| {
            lines.entry(row.bytes(0)).or_insert(row.int(1) == 1);
        });
        Counted { last: through(period - 1), through: through(period), lines }
    }

    /// A record that is dated in the period was charged at its end. Before a plus line it was not, and before a minus line it was.
    fn has(&self, name: &[u8], is_charged: bool) -> bool {
        self.lines.get(name).map_or(is_charged, |is_plus| !is_plus)
    }
}

/// The charge rows of a period by a tariff, by day, centre and shift, and what they come to. 64 bits need not hold that.
type Charged<'t> = (BTreeMap<(i64, &'t str, &'t str), Sums>, u128);

fn charged_under<'t>(db: &Database, period: i64, tariff: &'t Tariff) -> Charged<'t> {
    let counted = Counted::of(db, period);
    let dated = db.prepare("SELECT name, charged, day, data FROM record WHERE day > ?1 AND day <= ?2 ORDER BY name");
    let days = [Value::Int(counted.last.unwrap_or(i64::MIN)), Value::Int(counted.through.unwrap_or(i64::MAX))];
    let (mut joined, mut rows, mut cost) = (Joined::new(), BTreeMap::new(), 0);
    dated.each(&days, |row| {
        if !counted.has(row.lent(0), row.int(1) == 1) {
            return;
        }
        let record = joined.with(row.lent(3));
        let (price, (cpu, blocks)) = (tariff.price(record), measured(record));
        let sums: &mut Sums = rows.entry((row.int(2), price.centre, price.shift)).or_default();
        sums.add(&Sums { count: 1, cpu, blocks, amount: price.amount });
        cost += u128::from(price.amount);
    });
    (rows, cost)
}

/// What the period's statement comes to.
fn charged(db: &Database, period: i64) -> Sums {
    let sums = db.prepare("SELECT sum(count), sum(cpu), sum(blocks), sum(amount) FROM day_sum WHERE period = ?1");
    let mut found = sums.query(&[Value::Int(period)], |row| {
        let number = |at| row.int(at) as u64;
        Sums { count: number(0), cpu: number(1), blocks: number(2), amount: number(3) }
    });
    found.remove(0)
}

/// The period, and the day that it was closed through, if it was.
pub fn title(db: &Database, period: i64) -> String {
    let closed = db.prepare("SELECT through FROM closed WHERE period = ?1");
    match closed.query(&[Value::Int(period)], |row| row.int(0)).first() {
        Some(through) => format!("PERIOD {period} CLOSED THROUGH {}", date_text(*through as u64)),
        None => format!("PERIOD {period} OPEN"),
    }
}

/// Writes what a period would be charged by the tariff of a file, and what it is charged: or the number of the refusal.
pub fn write_what_if(out: &mut impl Write, db: &Database, period: i64, file: &str) -> io::Result<Result<(), u8>> {
    let tariff = Tariff::of(file);
    db.run("BEGIN");
    let (rows, cost) = charged_under(db, period, &tariff);
    let (title, charged) = (title(db, period), charged(db, period));
    db.run("COMMIT");
    if cost > u128::from(MAX_TOTAL) {
        return Ok(Err(FULL));
    }
    writeln!(out, "WHAT-IF {title}")?;
    writeln!(out, "TARIFF {}", sha256(file.as_bytes()))?;
    write_heading(out)?;
    let mut total = Sums::default();
    for ((day, centre, shift), sums) in &rows {
        write_row(out, &date_text(*day as u64), centre, shift, sums)?;
        total.add(sums);
    }
    write_row(out, "TOTAL", "", "", &total)?;
    write_row(out, "CHARGED", "", "", &charged)?;
    Ok(Ok(()))
}
