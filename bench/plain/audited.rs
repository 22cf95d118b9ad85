//! A second reading of books, by SQLite's own library: its own check of all pages and indexes; then one walk over the records by
//! name, in which name, identity and price of each are worked out again. What is counted so has to be the charge rows, and each
//! counted record has its row of details. For books without choices, under the first rule of identity.

use crate::books::{Sums, identification, identity, measured};
use crate::numbers::{number2, number4};
use crate::records::{Day, STEP_END};
use crate::repriced::{Joined, number, text};
use crate::sha256::sha256_bytes;
use crate::sqlite::{Database, Statement, Value};
use crate::tariffs::Tariff;
use std::collections::{BTreeMap, HashMap, HashSet};

/// A charge row's place: its period, day, centre and shift.
type Place = (i64, i64, String, String);

/// What is read before the records.
struct Rulings {
    tariffs: Vec<Tariff>,
    closes: Vec<i64>,
    /// Of each record that has lines their periods, and whether they add it, the last one first.
    lines: HashMap<Vec<u8>, Vec<(i64, bool)>>,
    /// The identities that two records or more have.
    shared: HashSet<Vec<u8>>,
}

impl Rulings {
    fn of(db: &Database) -> Rulings {
        let mut lines: HashMap<_, Vec<_>> = HashMap::new();
        db.prepare("SELECT name, period, plus FROM line ORDER BY period DESC").each(&[], |row| {
            lines.entry(row.bytes(0)).or_default().push((row.int(1), row.int(2) == 1));
        });
        let shared = db.prepare("SELECT ident FROM record GROUP BY ident HAVING count(*) > 1");
        Rulings {
            tariffs: db.prepare("SELECT body FROM tariff ORDER BY day").query(&[], |row| Tariff::of(text(row, 0))),
            closes: db.prepare("SELECT through FROM closed ORDER BY period").query(&[], |row| row.int(0)),
            lines,
            shared: shared.query(&[], |row| row.bytes(0)).into_iter().collect(),
        }
    }

    fn open(&self) -> i64 {
        self.closes.len() as i64 + 1
    }

    fn period_of(&self, day: i64) -> i64 {
        self.closes.iter().filter(|through| **through < day).count() as i64 + 1
    }

    fn lines_of(&self, name: &[u8]) -> &[(i64, bool)] {
        self.lines.get(name).map_or(&[], |lines| lines)
    }
}

/// What the walk has counted.
#[derive(Default)]
struct Counted {
    rows: BTreeMap<Place, Sums>,
    records: i64,
    held: i64,
    cost: i64,
}

fn expect(is_so: bool, what: &str) -> Result<(), String> {
    if is_so { Ok(()) } else { Err(what.to_string()) }
}

/// Compares the row of a record with its bytes, its tariff, its rivals and its lines; true where its own period counts it.
fn is_counted(rulings: &Rulings, row: &Statement, record: &[u8]) -> Result<bool, String> {
    let (name, day, is_charged) = (row.lent(0), row.int(3), row.int(9) == 1);
    expect(sha256_bytes(row.lent(2)) == name, "name")?;
    expect(identity(record) == row.lent(1), "identity")?;
    expect(Day::of(record).is_some_and(|of| of.number() == day), "day")?;
    let tariff = rulings.tariffs.iter().rfind(|tariff| tariff.first_day <= day).ok_or("tariff")?;
    let (price, (cpu, blocks)) = (tariff.price(record), measured(record));
    expect(price.shift == text(row, 4) && price.centre == text(row, 5), "place")?;
    expect((cpu as i64, blocks as i64, price.amount as i64) == (row.int(6), row.int(7), row.int(8)), "price")?;
    expect(is_charged != rulings.shared.contains(row.lent(1)), "charged")?;
    let (mut was, own) = (is_charged, rulings.period_of(day));
    let mut is_posted = own < rulings.open() && is_charged;
    for (period, is_plus) in rulings.lines_of(name) {
        expect(*is_plus == was && *period > own, "line")?;
        was = !was;
        is_posted = if *period == rulings.open() { was } else { is_posted };
    }
    expect((row.int(10) == 1) == is_posted, "posted")?;
    Ok(was)
}

/// The row of details of a record that is counted shows it.
fn is_shown(detail: &Statement, row: &Statement, record: &[u8]) -> bool {
    let (section, mut found) = (identification(record), false);
    let step = if number2(record, 22) == STEP_END { i64::from(number2(section, 40)) } else { -1 };
    let key = [
        Value::Int(row.int(3)),
        Value::Text(text(row, 5)),
        Value::Text(text(row, 4)),
        Value::Int(i64::from(number4(record, 6))),
        Value::Blob(row.lent(0)),
    ];
    detail.each(&key, |shown| {
        found = [shown.lent(0), shown.lent(1), shown.lent(2)] == [&section[..8], &section[8..16], &section[32..40]]
            && shown.int(3) == step
            && (4..7).all(|at| shown.int(at) == row.int(at + 2));
    });
    found
}

fn walk(db: &Database, rulings: &Rulings) -> Result<Counted, String> {
    let detail = db.prepare(
        "SELECT job, program, job_id, ifnull(step, -1), cpu, blocks, amount FROM detail
            WHERE day = ?1 AND centre = ?2 AND shift = ?3 AND time = ?4 AND name = ?5",
    );
    let (mut joined, mut counted, mut told) = (Joined::new(), Counted::default(), Ok(()));
    db.prepare("SELECT * FROM record ORDER BY name").each(&[], |row| {
        let record = joined.with(row.lent(2));
        (counted.held, counted.cost) = (counted.held + 1, counted.cost + row.int(8));
        match is_counted(rulings, row, record) {
            Ok(true) if is_shown(&detail, row, record) => {
                let place = (rulings.period_of(row.int(3)), row.int(3), text(row, 5).to_string(), text(row, 4).to_string());
                let [cpu, blocks, amount] = [6, 7, 8].map(|at| row.int(at) as u64);
                counted.rows.entry(place).or_default().add(&Sums { count: 1, cpu, blocks, amount });
                counted.records += 1;
            }
            Ok(true) => told = Err("detail".to_string()),
            Ok(false) => {}
            Err(what) => told = Err(what),
        }
    });
    told.map(|()| counted)
}

/// The charge rows of the file are those.
fn are_rows(db: &Database, rows: &BTreeMap<Place, Sums>) -> bool {
    let (mut wanted, mut are_same) = (rows.iter(), true);
    db.prepare("SELECT * FROM day_sum ORDER BY period, day, centre, shift").each(&[], |row| {
        are_same &= wanted.next().is_some_and(|((period, day, centre, shift), sums)| {
            (*period, *day, &centre[..], &shift[..]) == (row.int(0), row.int(1), text(row, 2), text(row, 3))
                && [sums.count, sums.cpu, sums.blocks, sums.amount] == [4, 5, 6, 7].map(|at| row.int(at) as u64)
        });
    });
    are_same && wanted.next().is_none()
}

/// What chargectl's audit prints of sound books, or what is not right.
pub fn audit(db: &Database) -> Result<String, String> {
    let checked = db.prepare("PRAGMA integrity_check").query(&[], |row| row.bytes(0));
    expect(checked == [b"ok"], "pages")?;
    db.run("BEGIN");
    let rulings = Rulings::of(db);
    let counted = walk(db, &rulings)?;
    expect(are_rows(db, &counted.rows), "charge rows")?;
    let count = |sql: &str| number(db, sql, &[]);
    expect(count("SELECT count(*) FROM detail") == counted.records, "details")?;
    expect((count("SELECT held FROM book"), count("SELECT amount FROM book")) == (counted.held, counted.cost), "book")?;
    let told = format!(
        "SOUND\nFORM {}\nRECORDS {}\nTARIFFS {}\nCLOSES {}\nCHOICES {}\nROWS {}\nLINES {}\n",
        count("PRAGMA user_version"),
        counted.held,
        rulings.tariffs.len(),
        rulings.closes.len(),
        count("SELECT count(*) FROM choice"),
        counted.rows.len(),
        count("SELECT count(*) FROM line"),
    );
    db.run("COMMIT");
    Ok(told)
}
