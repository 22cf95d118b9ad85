//! What a record is, and its fields.

use crate::numbers::{number2, number4};

pub const HEADER_LEN: usize = 18;
pub const SUBTYPE_END: usize = 24;
pub const TRIPLETS_END: usize = 72;
pub const STEP_END: u16 = 4;
pub const JOB_END: u16 = 5;
pub const HUNDREDTHS_PER_DAY: u32 = 8_640_000;

/// Where the triplets of the sections are.
pub const IDENTIFICATION: usize = 32;
pub const IO_ACTIVITY: usize = 40;
pub const COMPLETION: usize = 48;
pub const PROCESSOR: usize = 56;
pub const ACCOUNTING: usize = 64;

pub fn offset(record: &[u8], triplet: usize) -> usize {
    number4(record, triplet) as usize
}

pub fn count(record: &[u8], triplet: usize) -> u16 {
    number2(record, triplet + 6)
}

/// The section is absent, or long enough and inside the record.
pub fn fits(record: &[u8], triplet: usize, least: usize) -> bool {
    let len = usize::from(number2(record, triplet + 4));
    count(record, triplet) == 0 || len >= least && offset(record, triplet) + len <= record.len()
}

pub fn has_accounts(record: &[u8]) -> bool {
    let mut at = offset(record, ACCOUNTING);
    for _ in 0..count(record, ACCOUNTING) {
        let Some(len) = record.get(at) else {
            return false;
        };
        at += 1 + usize::from(*len);
    }
    count(record, ACCOUNTING) == 0 || at <= record.len()
}

/// Accounting field n, the first being 1, if a usage record has it.
#[cfg(books)]
pub fn account(record: &[u8], n: u16) -> Option<&[u8]> {
    if n > count(record, ACCOUNTING) {
        return None;
    }
    let mut at = offset(record, ACCOUNTING);
    for _ in 1..n {
        at += 1 + usize::from(record[at]);
    }
    Some(&record[at + 1..][..usize::from(record[at])])
}

#[derive(Clone, Copy, PartialEq, Eq, PartialOrd, Ord)]
pub struct Day {
    pub year: u32,
    pub day_of_year: u32,
}

pub fn is_leap(year: u32) -> bool {
    year % 4 == 0 && (year % 100 != 0 || year % 400 == 0)
}

/// How long the months of a year are, without the last.
fn months(year: u32) -> [u32; 11] {
    [31, if is_leap(year) { 29 } else { 28 }, 31, 30, 31, 30, 31, 31, 30, 31, 30]
}

impl Day {
    /// Reads the header's date, `0cyydddF` or `0cyydddC`.
    pub fn of(record: &[u8]) -> Option<Day> {
        let packed = number4(record, 10);
        let digit = |place: u32| packed >> (28 - 4 * place) & 15;
        if (0..7).any(|place| digit(place) > 9) || digit(0) != 0 || digit(1) > 1 {
            return None;
        }
        let year = 1900 + 100 * digit(1) + 10 * digit(2) + digit(3);
        let day_of_year = 100 * digit(4) + 10 * digit(5) + digit(6);
        let last = if is_leap(year) { 366 } else { 365 };
        let is_signed = digit(7) == 0xF || digit(7) == 0xC;
        (1 <= day_of_year && day_of_year <= last && is_signed).then_some(Day { year, day_of_year })
    }

    /// Reads `YYYY-MM-DD`.
    #[cfg(books)]
    pub fn of_text(text: &str) -> Option<Day> {
        let mut parts = text.split('-').map(|part| part.parse::<u32>().ok());
        let (year, month, day) = (parts.next()??, parts.next()??, parts.next()??);
        let before: u32 = months(year).get(..month.checked_sub(1)? as usize)?.iter().sum();
        Some(Day { year, day_of_year: before + day })
    }

    /// Days since 1970-01-01.
    #[cfg(books)]
    pub fn number(self) -> i64 {
        let before = i64::from(self.year) - 1;
        365 * (before - 1969) + (before / 4 - 492) - (before / 100 - 19) + (before / 400 - 4)
            + i64::from(self.day_of_year) - 1
    }

    pub fn text(self) -> String {
        let (mut month, mut day) = (1, self.day_of_year);
        for len in months(self.year) {
            if day > len {
                day -= len;
                month += 1;
            } else {
                break;
            }
        }
        format!("{}-{month:02}-{day:02}", self.year)
    }
}

#[derive(Clone, Copy)]
pub enum Damage {
    Short = 1,
    Date,
    Time,
    NoIdentification,
    Identification,
    Processor,
    InputOutput,
    Completion,
    Accounting,
}

pub enum Class {
    DumpHeader,
    DumpTrailer,
    DataLost,
    Other,
    Continuation,
    Usage,
    Damaged(Damage),
}

pub fn first_damage(record: &[u8]) -> Option<Damage> {
    let tests = [
        (Damage::Date, Day::of(record).is_some()),
        (Damage::Time, number4(record, 6) < HUNDREDTHS_PER_DAY),
        (Damage::NoIdentification, count(record, IDENTIFICATION) > 0),
        (Damage::Identification, fits(record, IDENTIFICATION, 72)),
        (Damage::Processor, fits(record, PROCESSOR, 12)),
        (Damage::InputOutput, fits(record, IO_ACTIVITY, 8)),
        (Damage::Completion, fits(record, COMPLETION, 4)),
        (Damage::Accounting, has_accounts(record)),
    ];
    tests.into_iter().find(|(_, is_passed)| !is_passed).map(|(damage, _)| damage)
}

pub fn class_of_work(record: &[u8]) -> Class {
    if record.len() < SUBTYPE_END {
        return Class::Damaged(Damage::Short);
    }
    if number2(record, 22) != STEP_END && number2(record, 22) != JOB_END {
        return Class::Other;
    }
    if record.len() < TRIPLETS_END {
        return Class::Damaged(Damage::Short);
    }
    if count(record, PROCESSOR) == 0 {
        return Class::Continuation;
    }
    first_damage(record).map_or(Class::Usage, Class::Damaged)
}

pub fn class(record: &[u8]) -> Class {
    if record.len() < HEADER_LEN {
        return Class::Damaged(Damage::Short);
    }
    match record[5] {
        2 => Class::DumpHeader,
        3 => Class::DumpTrailer,
        7 => Class::DataLost,
        30 => class_of_work(record),
        _ => Class::Other,
    }
}
