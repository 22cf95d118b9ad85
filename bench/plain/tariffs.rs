//! Tariff files, and what a record costs by one. Of TOML only what samples/office.toml has is read: a key and its value on a
//! line, texts without escapes, whole numbers and lists of them, under headings.

use crate::books::{Rates, identification, measured};
use crate::numbers::{number2, number4};
use crate::records::{Day, STEP_END, account};
use crate::texts::encoded;
use std::collections::HashMap;

const HUNDREDTHS_PER_MINUTE: u32 = 6_000;

/// What is under a heading: its keys, and their values as they are written.
struct Section<'a> {
    heading: &'a str,
    values: HashMap<&'a str, &'a str>,
}

impl<'a> Section<'a> {
    fn new(heading: &'a str) -> Section<'a> {
        Section { heading, values: HashMap::new() }
    }

    fn has(&self, key: &str) -> bool {
        self.values.contains_key(key)
    }

    fn value(&self, key: &str) -> &'a str {
        self.values.get(key).unwrap_or_else(|| panic!("the tariff has no key {key}"))
    }

    fn text(&self, key: &str) -> &'a str {
        self.value(key).trim_matches('"')
    }

    fn number(&self, key: &str) -> u64 {
        whole(self.value(key))
    }

    fn numbers(&self, key: &str) -> Vec<u64> {
        self.value(key).trim_matches(['[', ']']).split(',').map(whole).collect()
    }

    fn day(&self, key: &str) -> i64 {
        Day::of_text(self.text(key)).expect("a date").number()
    }

    /// The minute of a time of day.
    fn minute(&self, key: &str) -> u32 {
        let (hours, minutes) = self.text(key).split_once(':').expect("a time of day");
        (60 * whole(hours) + whole(minutes)) as u32
    }

    /// The three rates of steps, or of jobs.
    fn rates(&self, kind: &str) -> Rates {
        let rate = |unit: &str| self.number(&format!("{kind}_{unit}"));
        Rates { cpu: rate("cpu"), excp: rate("excp"), record: rate("record") }
    }
}

fn whole(text: &str) -> u64 {
    text.trim().parse().expect("a whole number")
}

/// A line without what is noted after a `#` that is in no text.
fn without_note(line: &str) -> &str {
    let mut is_text = false;
    let note = line.find(|character| {
        is_text ^= character == '"';
        character == '#' && !is_text
    });
    line[..note.unwrap_or(line.len())].trim()
}

/// The sections of a file, the first of which has no heading.
fn sections(file: &str) -> Vec<Section<'_>> {
    let mut sections = vec![Section::new("")];
    for line in file.lines().map(without_note) {
        if line.starts_with('[') {
            sections.push(Section::new(line.trim_matches(['[', ']'])));
        } else if let Some((key, value)) = line.split_once('=') {
            sections.last_mut().expect("the first is there").values.insert(key.trim(), value.trim());
        }
    }
    sections
}

/// A shift, which charges a given percent at some hours of some weekdays; Monday is 1.
struct Shift {
    name: String,
    days: Vec<u64>,
    from: u32,
    to: u32,
    percent: u64,
}

impl Shift {
    fn of(section: &Section) -> Shift {
        Shift {
            name: section.text("name").to_string(),
            days: section.numbers("days"),
            from: section.minute("from"),
            to: section.minute("to"),
            percent: section.number("percent"),
        }
    }

    fn has(&self, weekday: u64, minute: u32) -> bool {
        self.days.contains(&weekday) && self.from <= minute && minute < self.to
    }
}

/// A centre, which pays where an accounting field begins so, or without one the job's name.
struct Centre {
    name: String,
    account: Option<u16>,
    prefix: Vec<u8>,
}

impl Centre {
    fn of(section: &Section) -> Centre {
        let account = section.has("account").then(|| section.number("account") as u16);
        let prefix = section.text(if account.is_some() { "prefix" } else { "job" });
        Centre {
            name: section.text("name").to_string(),
            account,
            prefix: encoded(prefix).expect("characters of code page 037"),
        }
    }

    fn pays_for(&self, record: &[u8]) -> bool {
        let field = match self.account {
            Some(n) => account(record, n),
            None => Some(&identification(record)[..8]),
        };
        field.is_some_and(|field| field.starts_with(&self.prefix))
    }
}

/// Where a record is charged, and how much.
pub struct Price<'t> {
    pub shift: &'t str,
    pub centre: &'t str,
    pub amount: u64,
}

pub struct Tariff {
    /// In days since 1970-01-01.
    pub first_day: i64,
    step: Rates,
    job: Rates,
    shifts: Vec<Shift>,
    centres: Vec<Centre>,
}

impl Tariff {
    pub fn of(file: &str) -> Tariff {
        let sections = sections(file);
        let under = |heading: &'static str| sections.iter().filter(move |section| section.heading == heading);
        let rates = under("rates").next().expect("the tariff has rates");
        Tariff {
            first_day: sections[0].day("effective"),
            step: rates.rates("step"),
            job: rates.rates("job"),
            shifts: under("shift").map(Shift::of).collect(),
            centres: under("centre").map(Centre::of).collect(),
        }
    }

    /// The shift of a record's moment, and its percent.
    fn shift_of(&self, record: &[u8]) -> (&str, u64) {
        let day = Day::of(record).expect("a usage record has a day").number();
        // The first day of 1970 was a Thursday.
        let weekday = (day + 3).rem_euclid(7) as u64 + 1;
        let minute = number4(record, 6) / HUNDREDTHS_PER_MINUTE;
        let shift = self.shifts.iter().find(|shift| shift.has(weekday, minute));
        shift.map_or(("BASE", 100), |shift| (&shift.name, shift.percent))
    }

    fn centre_of(&self, record: &[u8]) -> &str {
        self.centres.iter().find(|centre| centre.pays_for(record)).map_or("UNASSIGNED", |centre| &centre.name)
    }

    /// What a usage record costs, its descriptor included.
    pub fn price(&self, record: &[u8]) -> Price<'_> {
        let (shift, percent) = self.shift_of(record);
        let rates = if number2(record, 22) == STEP_END { &self.step } else { &self.job };
        let (cpu, blocks) = measured(record);
        Price { shift, centre: self.centre_of(record), amount: rates.amount(percent, cpu, blocks) }
    }
}
