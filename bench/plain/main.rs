//! What `chargectl check` and `chargectl trial` do, as one plain program without proofs and libraries,
//! for `run` to measure them against. The formats are those of docs/FORMATS.md.
//!
//! `plain check FILE LAYOUT` and `plain trial LAYOUT CPU EXCP RECORD` print what chargectl prints. One
//! thing is done differently, and no text shows it: chargectl keeps each record by its name, the SHA-256 of
//! its data. Here a record is known by the data itself, and only those of a dispute list are named.
//!
//! Built with `--cfg books`, `plain import BOOK FILE CPU EXCP RECORD [BYTES]` keeps books in a file, by SQLite's own
//! library, with a commit for each read of so many bytes, `plain tariff BOOK FILE` puts a tariff in force there,
//! `plain adopt BOOK` adopts the second rule of identity, `plain statement BOOK PERIOD` prints the statement of a closed
//! period, and with `--tariff FILE` what a period would be charged by that tariff,
//! `plain details BOOK PERIOD` prints the details of a period, `plain upgrade BOOK` brings books of form 0 over,
//! `plain audit BOOK` reads books a second time, and `plain serve BOOK PORT REQUESTS CPU EXCP RECORD` answers for them over
//! HTTP.

#[cfg(books)]
mod adopted;
#[cfg(books)]
mod audited;
mod books;
#[cfg(books)]
mod detailed;
mod dumps;
#[cfg(books)]
mod filed;
mod numbers;
mod records;
#[cfg(books)]
mod repriced;
#[cfg(books)]
mod served;
mod sha256;
#[cfg(books)]
mod sqlite;
#[cfg(books)]
mod tariffs;
mod texts;
#[cfg(books)]
mod whatif;

use books::{Books, Rates, import};
#[cfg(books)]
use dumps::PIECE;
use dumps::{Dump, Layout, Stop};
use std::fs::File;
use std::io::{BufWriter, Write};
use std::process::ExitCode;
use std::{env, io};
use texts::{write_check_line, write_disputes, write_receipt, write_statement};

fn check(file: &str, layout: Layout) -> io::Result<Stop> {
    let mut dump = Dump::new(layout, File::open(file)?);
    let mut out = BufWriter::with_capacity(65_536, io::stdout().lock());
    let mut count = 0;
    let stop = loop {
        match dump.next()? {
            Ok(Some(record)) => {
                count += 1;
                write_check_line(&mut out, count, record)?;
            }
            Ok(None) => break Stop::End,
            Err(fault) => break Stop::Frame(fault),
        }
    };
    writeln!(out, "RECORDS {count} STOP {}", stop.text())?;
    out.flush()?;
    Ok(stop)
}

fn trial(layout: Layout, rates: &Rates) -> io::Result<Stop> {
    let mut books = Books::default();
    let (receipt, stop) = import(&mut books, &mut Dump::new(layout, io::stdin().lock()), rates)?;
    let mut out = BufWriter::new(io::stdout().lock());
    write_receipt(&mut out, &receipt, &stop)?;
    write_statement(&mut out, &books)?;
    write_disputes(&mut out, &books)?;
    out.flush()?;
    Ok(stop)
}

#[cfg(books)]
fn import_into(book: &str, file: &str, rates: &Rates, bytes: usize) -> io::Result<Stop> {
    let mut dump = Dump::by_reads_of(bytes, Layout::Rdw, File::open(file)?);
    let db = filed::open(book);
    let mut filed = filed::Filed::over(&db);
    let (receipt, stop) = filed.import(&mut dump, rates)?;
    drop(filed);
    db.close();
    write_receipt(&mut io::stdout().lock(), &receipt, &stop)?;
    Ok(stop)
}

/// Puts the tariff of a file in force, and prints what is answered.
#[cfg(books)]
fn put_in_force(book: &str, file: &str) -> io::Result<ExitCode> {
    let text = std::fs::read_to_string(file)?;
    let db = filed::open(book);
    let answer = repriced::put_in_force(&db, &text);
    db.close();
    match answer {
        Ok(word) => println!("{word}"),
        Err(fault) => eprintln!("plain: ledger {fault}"),
    }
    Ok(if answer.is_ok() { ExitCode::SUCCESS } else { ExitCode::from(3) })
}

/// Adopts the second rule of identity, and prints what is answered.
#[cfg(books)]
fn adopt(book: &str) -> ExitCode {
    let db = filed::open(book);
    let answer = adopted::adopt(&db);
    db.close();
    println!("{answer}");
    ExitCode::SUCCESS
}

/// Prints the statement of a closed period.
#[cfg(books)]
fn statement(book: &str, period: i64) -> io::Result<ExitCode> {
    let db = filed::open(book);
    let text = served::closed_statement(&db, period)?;
    db.close();
    io::stdout().write_all(&text)?;
    Ok(ExitCode::SUCCESS)
}

/// Prints what a period would be charged by the tariff of a file.
#[cfg(books)]
fn what_if(book: &str, period: i64, file: &str) -> io::Result<ExitCode> {
    let text = std::fs::read_to_string(file)?;
    let mut out = BufWriter::new(io::stdout().lock());
    let db = filed::open(book);
    let answer = whatif::write_what_if(&mut out, &db, period, &text)?;
    db.close();
    out.flush()?;
    if let Err(fault) = answer {
        eprintln!("plain: ledger {fault}");
        return Ok(ExitCode::from(3));
    }
    Ok(ExitCode::SUCCESS)
}

/// Prints the details of a period.
#[cfg(books)]
fn details(book: &str, period: i64) -> io::Result<ExitCode> {
    let mut out = BufWriter::new(io::stdout().lock());
    let db = filed::open(book);
    detailed::write_details(&mut out, &db, period)?;
    db.close();
    out.flush()?;
    Ok(ExitCode::SUCCESS)
}

/// Brings books of form 0 over, and prints what is answered.
#[cfg(books)]
fn upgrade(book: &str) -> ExitCode {
    let db = filed::open(book);
    let answer = detailed::upgrade(&db);
    db.close();
    println!("{answer}");
    ExitCode::SUCCESS
}

/// Reads books a second time, and prints what they have, if all is right.
#[cfg(books)]
fn audit(book: &str) -> ExitCode {
    let db = filed::open(book);
    let told = audited::audit(&db);
    db.close();
    match told {
        Ok(text) => {
            print!("{text}");
            ExitCode::SUCCESS
        }
        Err(what) => {
            eprintln!("plain: {what}");
            ExitCode::from(4)
        }
    }
}

fn main() -> ExitCode {
    let words: Vec<String> = env::args().skip(1).collect();
    let words: Vec<&str> = words.iter().map(String::as_str).collect();
    let layout = |word| if word == "bdw" { Layout::Bdw } else { Layout::Rdw };
    let rate = |word: &str| word.parse().expect("a rate is a whole number");
    let stop = match words[..] {
        ["check", file, word] => check(file, layout(word)),
        ["trial", word, cpu, excp, record] => {
            trial(layout(word), &Rates { cpu: rate(cpu), excp: rate(excp), record: rate(record) })
        }
        #[cfg(books)]
        ["import", book, file, cpu, excp, record] => {
            import_into(book, file, &Rates { cpu: rate(cpu), excp: rate(excp), record: rate(record) }, PIECE)
        }
        #[cfg(books)]
        ["import", book, file, cpu, excp, record, bytes] => {
            let bytes = bytes.parse().expect("a number of bytes");
            import_into(book, file, &Rates { cpu: rate(cpu), excp: rate(excp), record: rate(record) }, bytes)
        }
        #[cfg(books)]
        ["tariff", book, file] => return put_in_force(book, file).unwrap_or(ExitCode::FAILURE),
        #[cfg(books)]
        ["adopt", book] => return adopt(book),
        #[cfg(books)]
        ["upgrade", book] => return upgrade(book),
        #[cfg(books)]
        ["audit", book] => return audit(book),
        #[cfg(books)]
        ["details", book, period] => {
            let period = period.parse().expect("a period is a number");
            return details(book, period).unwrap_or(ExitCode::FAILURE);
        }
        #[cfg(books)]
        ["statement", book, period] => {
            let period = period.parse().expect("a period is a number");
            return statement(book, period).unwrap_or(ExitCode::FAILURE);
        }
        #[cfg(books)]
        ["statement", book, period, "--tariff", file] => {
            let period = period.parse().expect("a period is a number");
            return what_if(book, period, file).unwrap_or(ExitCode::FAILURE);
        }
        #[cfg(books)]
        ["serve", book, port, requests, cpu, excp, record] => {
            let rates = Rates { cpu: rate(cpu), excp: rate(excp), record: rate(record) };
            let number = |word: &str| word.parse().expect("a number");
            served::serve(book, number(port) as u16, number(requests), &rates).map(|()| Stop::End)
        }
        _ => return ExitCode::from(2),
    };
    match stop {
        Ok(Stop::End) => ExitCode::SUCCESS,
        Ok(_) => ExitCode::from(3),
        Err(_) => ExitCode::FAILURE,
    }
}
