//! The second rule of identity, by SQLite's own library: in one transaction each record gets its identity by that rule, and is
//! charged where it is alone in it then, or was chosen last of it.

use crate::books::identity2;
use crate::detailed::{Details, Place};
use crate::repriced::{BATCH, Changes, Joined, number, text};
use crate::sqlite::{Database, Statement, Value};

const SECOND_RULE: i64 = 2;

/// The records that are not charged and are to be, by identity and name, after the last of them that was read.
const DUE: &str = "
    SELECT ident, name, posted, day, centre, shift, cpu, blocks, amount, data FROM record AS due
        WHERE charged = 0 AND (ident, name) > (?1, ?2)
            AND (NOT EXISTS (SELECT * FROM record AS other WHERE other.ident = due.ident AND other.name <> due.name)
                OR name = (SELECT choice.name FROM record AS other JOIN choice ON choice.name = other.name
                    WHERE other.ident = due.ident ORDER BY choice.number DESC LIMIT 1))
        ORDER BY ident, name LIMIT ?3";

/// Where a record is charged from now on.
enum Charged {
    /// The last close charged it, and a line reversed it.
    Before,
    /// It came late, and a line adds it.
    Late,
    /// In its charge row.
    InRow,
}

struct Due {
    identity: Vec<u8>,
    name: Vec<u8>,
    charged: Charged,
}

/// What is open while it is adopted: the period, and the day of the close before.
struct Open {
    period: i64,
    closed_through: i64,
}

impl Open {
    fn of(db: &Database) -> Open {
        Open {
            period: number(db, "SELECT count(*) FROM closed", &[]) + 1,
            closed_through: number(db, "SELECT coalesce(max(through), -1000000) FROM closed", &[]),
        }
    }

    fn charged(&self, is_posted: bool, day: i64) -> Charged {
        if is_posted {
            Charged::Before
        } else if day <= self.closed_through {
            Charged::Late
        } else {
            Charged::InRow
        }
    }
}

/// Writes the identity of each record, in one pass by name.
fn rename(db: &Database) {
    let behind = db.prepare("SELECT name, data FROM record WHERE name > ?1 ORDER BY name LIMIT ?2");
    let set_identity = db.prepare("UPDATE record SET ident = ?2 WHERE name = ?1");
    let (mut joined, mut last) = (Joined::new(), Vec::new());
    loop {
        let mut named = Vec::with_capacity(BATCH);
        behind.each(&[Value::Blob(&last), Value::Int(BATCH as i64)], |row| {
            named.push((row.bytes(0), identity2(joined.with(row.lent(1)))));
        });
        for (name, identity) in &named {
            set_identity.execute(&[Value::Blob(name), Value::Blob(identity)]);
        }
        match named.pop() {
            Some((name, _)) => last = name,
            None => return,
        }
    }
}

/// Reads a batch of the records that are to be charged. What is charged in a row joins it.
fn due_behind(
    rows: &Statement,
    last: &(Vec<u8>, Vec<u8>),
    open: &Open,
    details: &Details,
    changes: &mut Changes,
) -> Vec<Due> {
    let (mut joined, mut due) = (Joined::new(), Vec::with_capacity(BATCH));
    rows.each(&[Value::Blob(&last.0), Value::Blob(&last.1), Value::Int(BATCH as i64)], |row| {
        let charged = open.charged(row.int(2) == 1, row.int(3));
        if let Charged::InRow = charged {
            let (day, centre, shift) = (row.int(3), text(row, 4), text(row, 5));
            let (cpu, blocks, amount) = (row.int(6), row.int(7), row.int(8));
            changes.add(day, centre, shift, [1, cpu, blocks, amount]);
            let place = Place { name: row.lent(1), day, centre, shift, cpu, blocks, amount };
            details.insert(&place, joined.with(row.lent(9)));
        }
        due.push(Due { identity: row.bytes(0), name: row.bytes(1), charged });
    });
    due
}

/// Charges the records that are to be charged.
fn settle(db: &Database, open: &Open) -> Changes {
    let rows = db.prepare(DUE);
    let mark = db.prepare("UPDATE record SET charged = 1 WHERE name = ?1");
    let drop_line = db.prepare("DELETE FROM line WHERE period = ?1 AND name = ?2");
    let add_line = db.prepare("INSERT INTO line VALUES (?1, ?2, 1)");
    let (details, mut last, mut changes) = (Details::of(db), (Vec::new(), Vec::new()), Changes::default());
    loop {
        let mut due = due_behind(&rows, &last, open, &details, &mut changes);
        for Due { name, charged, .. } in &due {
            let line = [Value::Int(open.period), Value::Blob(name)];
            mark.execute(&[Value::Blob(name)]);
            match charged {
                Charged::Before => drop_line.execute(&line),
                Charged::Late => add_line.execute(&line),
                Charged::InRow => {}
            }
        }
        match due.pop() {
            Some(Due { identity, name, .. }) => last = (identity, name),
            None => return changes,
        }
    }
}

fn write(db: &Database) {
    let open = Open::of(db);
    rename(db);
    settle(db, &open).write(db, open.period);
    let columns = [Value::Int(SECOND_RULE), Value::Int(open.period)];
    db.prepare("UPDATE book SET rule = ?1, adopted = ?2 WHERE id = 1").execute(&columns);
}

/// Adopts the rule, where it is not in force: the answer.
pub fn adopt(db: &Database) -> &'static str {
    db.run("BEGIN IMMEDIATE");
    let is_in_force = number(db, "SELECT rule FROM book", &[]) == SECOND_RULE;
    if !is_in_force {
        write(db);
    }
    db.run("COMMIT");
    if is_in_force { "ALREADY" } else { "DONE" }
}
