//! The books of `filed` over HTTP: `GET /statement/1` and `POST /import`, one connection after the other.

use crate::books::{Rates, Sums};
use crate::dumps::{Dump, Layout};
use crate::filed::{self, Filed};
use crate::sqlite::{Database, Value};
use crate::texts::{date_text, write_heading, write_receipt, write_row};
use std::io;
use std::io::{Read, Write};
use std::net::{TcpListener, TcpStream};

const LONGEST_HEAD: usize = 16_384;

/// A head, and what came after it.
fn read_head(stream: &mut TcpStream) -> io::Result<(String, Vec<u8>)> {
    let (mut bytes, mut piece) = (Vec::new(), [0; LONGEST_HEAD]);
    loop {
        if let Some(end) = bytes.windows(4).position(|end| end == b"\r\n\r\n") {
            let behind = bytes.split_off(end + 4);
            return Ok((String::from_utf8_lossy(&bytes).into_owned(), behind));
        }
        match stream.read(&mut piece)? {
            0 => return Err(io::ErrorKind::UnexpectedEof.into()),
            count => bytes.extend_from_slice(&piece[..count]),
        }
    }
}

fn read_body(stream: &mut TcpStream, head: &str, mut body: Vec<u8>) -> io::Result<Vec<u8>> {
    let length = head
        .lines()
        .filter_map(|line| line.split_once(':'))
        .find(|(name, _)| name.eq_ignore_ascii_case("content-length"))
        .and_then(|(_, value)| value.trim().parse().ok())
        .unwrap_or(0);
    let front = body.len().min(length);
    body.resize(length, 0);
    stream.read_exact(&mut body[front..])?;
    Ok(body)
}

/// The statement of a period, which is open or closed.
fn statement(db: &Database, period: i64, state: &str) -> io::Result<Vec<u8>> {
    let rows = db.prepare("SELECT day, centre, shift, count, cpu, blocks, amount FROM day_sum WHERE period = ?1 ORDER BY 1, 2, 3");
    let rows = rows.query(&[Value::Int(period)], |row| {
        let text = |at| String::from_utf8_lossy(&row.bytes(at)).into_owned();
        let number = |at| row.int(at) as u64;
        (number(0), text(1), text(2), Sums { count: number(3), cpu: number(4), blocks: number(5), amount: number(6) })
    });
    let (mut out, mut total) = (Vec::new(), Sums::default());
    writeln!(out, "STATEMENT PERIOD {period} {state}")?;
    write_heading(&mut out)?;
    for (day, centre, shift, sums) in &rows {
        write_row(&mut out, &date_text(*day), centre, shift, sums)?;
        total.add(sums);
    }
    write_row(&mut out, "TOTAL", "", "", &total)?;
    Ok(out)
}

/// The statement of a closed period, in books that chargectl made.
pub fn closed_statement(db: &Database, period: i64) -> io::Result<Vec<u8>> {
    let closed = db.prepare("SELECT through FROM closed WHERE period = ?1");
    let through = closed.query(&[Value::Int(period)], |row| row.int(0))[0];
    statement(db, period, &format!("CLOSED THROUGH {}", date_text(through as u64)))
}

fn answer(stream: &mut TcpStream, db: &Database, rates: &Rates) -> io::Result<()> {
    let (head, behind) = read_head(stream)?;
    let body = if head.starts_with("GET /statement/1 ") {
        statement(db, 1, "OPEN")?
    } else {
        let dump = read_body(stream, &head, behind)?;
        let (receipt, stop) = Filed::over(db).import(&mut Dump::new(Layout::Rdw, &dump[..]), rates)?;
        let mut out = Vec::new();
        write_receipt(&mut out, &receipt, &stop)?;
        out
    };
    write!(stream, "HTTP/1.1 200 OK\r\nContent-Type: text/plain; charset=us-ascii\r\n")?;
    write!(stream, "Content-Length: {}\r\nConnection: close\r\n\r\n", body.len())?;
    stream.write_all(&body)
}

pub fn serve(book: &str, port: u16, requests: u32, rates: &Rates) -> io::Result<()> {
    let db = filed::open(book);
    let listener = TcpListener::bind(("127.0.0.1", port))?;
    println!("READY");
    for _ in 0..requests {
        let (mut stream, _) = listener.accept()?;
        answer(&mut stream, &db, rates)?;
        println!("SERVED 200");
    }
    db.close();
    Ok(())
}
