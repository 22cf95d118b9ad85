//! What is printed.

use crate::books::{Books, Receipt, Sums, Usage, identification};
use crate::dumps::Stop;
use crate::numbers::{number2, number4};
use crate::records::{COMPLETION, Class, Day, HEADER_LEN, class, count, offset};
use crate::sha256::sha256;
use std::collections::BTreeMap;
use std::io;
use std::io::Write;

/// Code page 037 by runs of bytes. The backslash is not among them: it is shown by its number.
pub const PAGE: [(u8, &str); 15] = [
    (0x40, " "),
    (0x4B, ".<(+|&"),
    (0x5A, "!$*);"),
    (0x60, "-/"),
    (0x6B, ",%_>?"),
    (0x79, "`:#@'=\""),
    (0x81, "abcdefghi"),
    (0x91, "jklmnopqr"),
    (0xA1, "~stuvwxyz"),
    (0xB0, "^"),
    (0xBA, "[]"),
    (0xC0, "{ABCDEFGHI"),
    (0xD0, "}JKLMNOPQR"),
    (0xE2, "STUVWXYZ"),
    (0xF0, "0123456789"),
];

pub fn shown_byte(byte: u8) -> String {
    let place = |first: u8| byte.checked_sub(first).map(usize::from);
    match PAGE.iter().find_map(|(first, run)| run.as_bytes().get(place(*first)?)) {
        Some(character) => char::from(*character).to_string(),
        None => format!("\\{byte:02X}"),
    }
}

/// A text in code page 037.
#[cfg(books)]
pub fn encoded(text: &str) -> Option<Vec<u8>> {
    let place = |character: char| match character {
        '\\' => Some(0xE0),
        _ => PAGE.iter().find_map(|(first, run)| Some(first + run.find(character)? as u8)),
    };
    text.chars().map(place).collect()
}

/// A field without the blanks at its end.
pub fn shown(field: &[u8]) -> String {
    let blanks = field.iter().rev().take_while(|byte| **byte == 0x40).count();
    field[..field.len() - blanks].iter().map(|byte| shown_byte(*byte)).collect()
}

pub fn money(amount: u64) -> String {
    format!("{}.{:04}", amount / 10_000, amount % 10_000)
}

/// `YYYY-MM-DD` of a day since 1970-01-01.
#[cfg(books)]
pub fn date_text(days: u64) -> String {
    let shifted = days + 719_468;
    let (era, of_era) = (shifted / 146_097, shifted % 146_097);
    let year = (of_era - of_era / 1_460 + of_era / 36_524 - of_era / 146_096) / 365;
    let of_year = of_era - (365 * year + year / 4 - year / 100);
    let month = (5 * of_year + 2) / 153;
    let day = of_year - (153 * month + 2) / 5 + 1;
    let month = if month < 10 { month + 3 } else { month - 9 };
    format!("{:04}-{month:02}-{day:02}", year + era * 400 + u64::from(month <= 2))
}

pub fn write_receipt(out: &mut impl Write, receipt: &Receipt, stop: &Stop) -> io::Result<()> {
    let Receipt { kept, known, other, headers, trailers, lost, continued, damaged } = receipt;
    write!(out, "KEPT {kept} KNOWN {known} UNPRICED 0 OTHER {other} HEADERS {headers} TRAILERS {trailers} ")?;
    writeln!(out, "LOST {lost} CONTINUED {continued} DAMAGED {damaged} STOP {}", stop.text())
}

pub fn write_row(out: &mut impl Write, day: &str, centre: &str, shift: &str, sums: &Sums) -> io::Result<()> {
    let Sums { count, cpu, blocks, amount } = sums;
    let (cpu, amount) = (format!("{}.{:02}", cpu / 100, cpu % 100), money(*amount));
    writeln!(out, "{day:10} {centre:16} {shift:16} {count:8} {cpu:>19} {blocks:18} {amount:>21}")
}

/// The line above the rows of a statement.
pub fn write_heading(out: &mut impl Write) -> io::Result<()> {
    write!(out, "{:10} {:16} {:16} {:>8} ", "DAY", "CENTRE", "SHIFT", "COUNT")?;
    writeln!(out, "{:>19} {:>18} {:>21}", "CPU", "BLOCKS", "AMOUNT")
}

pub fn write_statement(out: &mut impl Write, books: &Books) -> io::Result<()> {
    let mut rows: BTreeMap<Day, Sums> = BTreeMap::new();
    for usage in books.held.iter().filter(|usage| books.is_alone(usage)) {
        rows.entry(usage.day).or_default().add(&usage.sums);
    }
    writeln!(out, "STATEMENT PERIOD 1 OPEN")?;
    write_heading(out)?;
    let mut total = Sums::default();
    for (day, sums) in &rows {
        write_row(out, &day.text(), "UNASSIGNED", "BASE", sums)?;
        total.add(sums);
    }
    write_row(out, "TOTAL", "", "", &total)
}

pub fn write_disputes(out: &mut impl Write, books: &Books) -> io::Result<()> {
    let mut disputes: BTreeMap<[u8; 24], BTreeMap<String, &Usage>> = BTreeMap::new();
    for usage in books.held.iter().filter(|usage| !books.is_alone(usage)) {
        disputes.entry(usage.identity).or_default().insert(sha256(usage.data()), usage);
    }
    writeln!(out, "DISPUTES {}", disputes.len())?;
    for (identity, variants) in &disputes {
        let (system, job) = (shown(&identity[..4]), shown(&identity[4..12]));
        let (time, date) = (number4(identity, 12), number4(identity, 16));
        let (subtype, step) = (number2(identity, 20), number2(identity, 22));
        writeln!(out, "{system} {job} READER {time:08X} {date:08X} SUBTYPE {subtype} STEP {step}")?;
        for (name, usage) in variants {
            write_variant(out, name, usage)?;
        }
    }
    Ok(())
}

pub fn write_variant(out: &mut impl Write, name: &str, usage: &Usage) -> io::Result<()> {
    let (day, amount) = (usage.day.text(), money(usage.sums.amount));
    write!(out, "  {name} {day} {amount:>21} ")?;
    match count(&usage.record, COMPLETION) {
        0 => write!(out, "----")?,
        _ => {
            let at = offset(&usage.record, COMPLETION);
            write!(out, "{:04X}/{:04X}", number2(&usage.record, at), number2(&usage.record, at + 2))?;
        }
    }
    let section = identification(&usage.record);
    writeln!(out, " {} {}", shown(&section[32..40]), shown(&section[8..16]))
}

pub fn write_check_line(out: &mut impl Write, number: usize, record: &[u8]) -> io::Result<()> {
    match record.get(5).filter(|_| record.len() >= HEADER_LEN) {
        Some(kind) => write!(out, "{number} TYPE {kind} ")?,
        None => write!(out, "{number} TYPE - ")?,
    }
    match class(record) {
        Class::DumpHeader => writeln!(out, "HEADER"),
        Class::DumpTrailer => writeln!(out, "TRAILER"),
        Class::DataLost => writeln!(out, "LOST"),
        Class::Other => writeln!(out, "OTHER"),
        Class::Continuation => writeln!(out, "CONTINUED"),
        Class::Usage => writeln!(out, "USAGE"),
        Class::Damaged(damage) => writeln!(out, "DAMAGED {}", damage as u8),
    }
}
