//! A tariff that comes late, by SQLite's own library: in one transaction each record that is dated on its first day or later
//! then costs what it says, and the charge rows of the open period follow.

use crate::books::MAX_TOTAL;
use crate::detailed::{Details, Place};
use crate::dumps::DESCRIPTOR_LEN;
use crate::sqlite::{Database, Statement, Value};
use crate::tariffs::{Price, Tariff};
use std::collections::BTreeMap;

/// The numbers of refusals, by docs/FORMATS.md.
pub const FULL: u8 = 4;
const TARIFF_DATE: u8 = 6;
const TARIFF_EXISTS: u8 = 7;

/// How many rows are read before their prices are written. A write between two rows of a query would make SQLite look for its
/// place again.
pub const BATCH: usize = 1_000;

/// A record as it lies in a dump; a row has its data. It is filled again for each row.
pub struct Joined(Vec<u8>);

impl Joined {
    pub fn new() -> Joined {
        Joined(vec![0; DESCRIPTOR_LEN])
    }

    pub fn with(&mut self, data: &[u8]) -> &[u8] {
        self.0.truncate(DESCRIPTOR_LEN);
        self.0.extend_from_slice(data);
        &self.0
    }
}

/// What joins the charge rows of the open period, and leaves them: by day, centre and shift, how many records, and their CPU
/// time, blocks and amount.
#[derive(Default)]
pub struct Changes(BTreeMap<(i64, String, String), [i64; 4]>);

impl Changes {
    /// A number of records with these sums join the row of a place.
    pub fn add(&mut self, day: i64, centre: &str, shift: &str, sums: [i64; 4]) {
        let row = self.0.entry((day, centre.to_string(), shift.to_string())).or_default();
        for (sum, more) in row.iter_mut().zip(sums) {
            *sum += more;
        }
    }

    /// Changes the charge rows so, and drops those that count no record any more.
    pub fn write(&self, db: &Database, period: i64) {
        let change = db.prepare(
            "INSERT INTO day_sum VALUES (?1, ?2, ?3, ?4, ?5, ?6, ?7, ?8)
                ON CONFLICT (period, day, centre, shift) DO UPDATE SET count = count + excluded.count,
                cpu = cpu + excluded.cpu, blocks = blocks + excluded.blocks, amount = amount + excluded.amount",
        );
        for ((day, centre, shift), sums) in &self.0 {
            let [count, cpu, blocks, amount] = sums.map(Value::Int);
            change.execute(&[
                Value::Int(period),
                Value::Int(*day),
                Value::Text(centre),
                Value::Text(shift),
                count,
                cpu,
                blocks,
                amount,
            ]);
        }
        db.prepare("DELETE FROM day_sum WHERE period = ?1 AND count = 0").execute(&[Value::Int(period)]);
    }
}

/// The number that a query finds in its first row.
pub fn number(db: &Database, sql: &str, values: &[Value]) -> i64 {
    db.prepare(sql).query(values, |row| row.int(0))[0]
}

/// What all records cost together under the tariff. 64 bits need not hold it.
fn cost_under(db: &Database, tariff: &Tariff) -> u128 {
    let (mut joined, mut cost) = (Joined::new(), 0);
    db.prepare("SELECT day, amount, data FROM record").each(&[], |row| {
        let is_earlier = row.int(0) < tariff.first_day;
        cost += u128::from(if is_earlier { row.int(1) as u64 } else { tariff.price(joined.with(row.lent(2))).amount });
    });
    cost
}

pub fn text(row: &Statement, at: i32) -> &str {
    std::str::from_utf8(row.lent(at)).expect("a name is ASCII")
}

/// Reads a batch of the records that the tariff is for, after a name: their names and new prices. What is charged of them
/// changes charge rows.
fn priced_behind<'t>(
    dated: &Statement,
    last: &[u8],
    tariff: &'t Tariff,
    details: &Details,
    changes: &mut Changes,
) -> Vec<(Vec<u8>, Price<'t>)> {
    let (mut joined, mut priced) = (Joined::new(), Vec::with_capacity(BATCH));
    dated.each(&[Value::Blob(last), Value::Int(tariff.first_day), Value::Int(BATCH as i64)], |row| {
        let record = joined.with(row.lent(1));
        let price = tariff.price(record);
        if row.int(2) == 1 {
            let (name, day, cpu, blocks) = (row.lent(0), row.int(3), row.int(6), row.int(7));
            let old = Place { name, day, centre: text(row, 4), shift: text(row, 5), cpu, blocks, amount: row.int(8) };
            let (centre, shift, amount) = (price.centre, price.shift, price.amount as i64);
            changes.add(day, old.centre, old.shift, [-1, -cpu, -blocks, -old.amount]);
            changes.add(day, centre, shift, [1, cpu, blocks, amount]);
            details.delete(&old, record);
            details.insert(&Place { name, day, centre, shift, cpu, blocks, amount }, record);
        }
        priced.push((row.bytes(0), price));
    });
    priced
}

/// Writes the new price of each record that the tariff is for, in one pass by name.
fn reprice(db: &Database, tariff: &Tariff) -> Changes {
    let dated = db.prepare(
        "SELECT name, data, charged, day, centre, shift, cpu, blocks, amount FROM record
            WHERE name > ?1 AND day >= ?2 ORDER BY name LIMIT ?3",
    );
    let set_price = db.prepare("UPDATE record SET shift = ?2, centre = ?3, amount = ?4 WHERE name = ?1");
    let (details, mut last, mut changes) = (Details::of(db), Vec::new(), Changes::default());
    loop {
        let mut priced = priced_behind(&dated, &last, tariff, &details, &mut changes);
        for (name, Price { shift, centre, amount }) in &priced {
            let amount = Value::Int(*amount as i64);
            set_price.execute(&[Value::Blob(name), Value::Text(shift), Value::Text(centre), amount]);
        }
        match priced.pop() {
            Some((name, _)) => last = name,
            None => return changes,
        }
    }
}

/// The answer to a tariff by what was ruled before it: none where it may be put in force.
fn ruled_before(db: &Database, file: &str, first_day: i64) -> Option<Result<&'static str, u8>> {
    let day = [Value::Int(first_day)];
    if number(db, "SELECT count(*) FROM tariff WHERE body = ?1", &[Value::Text(file)]) > 0 {
        Some(Ok("ALREADY"))
    } else if number(db, "SELECT count(*) FROM tariff WHERE day = ?1", &day) > 0 {
        Some(Err(TARIFF_EXISTS))
    } else if number(db, "SELECT count(*) FROM tariff WHERE day > ?1", &day) > 0
        || number(db, "SELECT count(*) FROM closed WHERE through >= ?1", &day) > 0
    {
        Some(Err(TARIFF_DATE))
    } else {
        None
    }
}

/// Prices what the tariff is for, and writes its text.
fn write(db: &Database, file: &str, tariff: &Tariff, cost: i64) {
    let period = number(db, "SELECT count(*) FROM closed", &[]) + 1;
    reprice(db, tariff).write(db, period);
    db.prepare("INSERT INTO tariff VALUES (?1, ?2)").execute(&[Value::Int(tariff.first_day), Value::Text(file)]);
    db.prepare("UPDATE book SET amount = ?1 WHERE id = 1").execute(&[Value::Int(cost)]);
}

/// Puts the tariff of a file in force: the answer, or the number of the refusal.
pub fn put_in_force(db: &Database, file: &str) -> Result<&'static str, u8> {
    let tariff = Tariff::of(file);
    db.run("BEGIN IMMEDIATE");
    let answer = ruled_before(db, file, tariff.first_day).unwrap_or_else(|| {
        let cost = cost_under(db, &tariff);
        if cost > u128::from(MAX_TOTAL) {
            return Err(FULL);
        }
        write(db, file, &tariff, cost as i64);
        Ok("DONE")
    });
    db.run("COMMIT");
    answer
}
