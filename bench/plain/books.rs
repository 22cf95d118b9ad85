//! Books under one price for all records.

use crate::dumps::{DESCRIPTOR_LEN, Dump, Stop};
use crate::numbers::{number2, number4};
use crate::records::{Class, Day, IDENTIFICATION, IO_ACTIVITY, PROCESSOR, STEP_END, class, count, offset};
use std::collections::{HashMap, HashSet};
use std::io;
use std::io::Read;
use std::rc::Rc;

pub const MAX_HELD: usize = 50_000_000;
pub const MAX_TOTAL: u64 = 4_000_000_000_000_000_000;

pub struct Rates {
    pub cpu: u64,
    pub excp: u64,
    pub record: u64,
}

impl Rates {
    /// What a record costs at a given percent, rounded once.
    pub fn amount(&self, percent: u64, cpu: u64, blocks: u64) -> u64 {
        let price = 10 * u128::from(cpu) * u128::from(self.cpu)
            + u128::from(blocks) * u128::from(self.excp)
            + 1000 * u128::from(self.record);
        ((price * u128::from(percent) + 50_000) / 100_000) as u64
    }
}

/// What records measure and cost together.
#[derive(Default)]
pub struct Sums {
    pub count: u64,
    pub cpu: u64,
    pub blocks: u64,
    pub amount: u64,
}

impl Sums {
    pub fn add(&mut self, other: &Sums) {
        self.count += other.count;
        self.cpu += other.cpu;
        self.blocks += other.blocks;
        self.amount += other.amount;
    }
}

/// A usage record with its price.
pub struct Usage {
    pub record: Rc<[u8]>,
    pub identity: [u8; 24],
    pub day: Day,
    pub sums: Sums,
}

impl Usage {
    pub fn read(record: &[u8], rates: &Rates) -> Usage {
        let (cpu, blocks) = measured(record);
        let amount = rates.amount(100, cpu, blocks);
        let day = Day::of(record).expect("a usage record has a day");
        Usage { record: record.into(), identity: identity(record), day, sums: Sums { count: 1, cpu, blocks, amount } }
    }

    pub fn data(&self) -> &[u8] {
        &self.record[DESCRIPTOR_LEN..]
    }
}

/// The CPU time and the blocks of a usage record.
pub fn measured(record: &[u8]) -> (u64, u64) {
    let processor = offset(record, PROCESSOR);
    let cpu = u64::from(number4(record, processor + 4)) + u64::from(number4(record, processor + 8));
    let blocks = match count(record, IO_ACTIVITY) {
        0 => 0,
        _ => u64::from(number4(record, offset(record, IO_ACTIVITY) + 4)),
    };
    (cpu, blocks)
}

pub fn identification(record: &[u8]) -> &[u8] {
    &record[offset(record, IDENTIFICATION)..]
}

pub fn identity(record: &[u8]) -> [u8; 24] {
    let section = identification(record);
    let mut identity = [0; 24];
    identity[..4].copy_from_slice(&record[14..18]);
    identity[4..12].copy_from_slice(&section[..8]);
    identity[12..20].copy_from_slice(&section[64..72]);
    identity[20..22].copy_from_slice(&record[22..24]);
    if number2(record, 22) == STEP_END {
        identity[22..].copy_from_slice(&section[40..42]);
    }
    identity
}

/// The identity by the second rule: time and date of the initiation belong to it.
#[cfg(books)]
pub fn identity2(record: &[u8]) -> [u8; 32] {
    let mut longer = [0; 32];
    longer[..24].copy_from_slice(&identity(record));
    longer[24..].copy_from_slice(&identification(record)[56..64]);
    longer
}

#[derive(Default)]
pub struct Books {
    pub known: HashSet<Rc<[u8]>>,
    pub held: Vec<Usage>,
    pub total: u64,
    /// How many records that are held have each identity.
    pub members: HashMap<[u8; 24], usize>,
}

impl Books {
    /// Holds a record that is new; false where there is no room for it.
    pub fn hold(&mut self, usage: Usage) -> bool {
        if self.held.len() >= MAX_HELD || self.total + usage.sums.amount > MAX_TOTAL {
            return false;
        }
        self.total += usage.sums.amount;
        self.known.insert(usage.record.clone());
        *self.members.entry(usage.identity).or_default() += 1;
        self.held.push(usage);
        true
    }

    pub fn is_alone(&self, usage: &Usage) -> bool {
        self.members[&usage.identity] == 1
    }
}

#[derive(Default)]
pub struct Receipt {
    pub kept: u64,
    pub known: u64,
    pub other: u64,
    pub headers: u64,
    pub trailers: u64,
    pub lost: u64,
    pub continued: u64,
    pub damaged: u64,
}

/// Books the records of a dump in order, up to the first for which there is no room.
pub fn import<R: Read>(books: &mut Books, dump: &mut Dump<R>, rates: &Rates) -> io::Result<(Receipt, Stop)> {
    let mut receipt = Receipt::default();
    loop {
        let record = match dump.next()? {
            Ok(Some(record)) => record,
            Ok(None) => return Ok((receipt, Stop::End)),
            Err(fault) => return Ok((receipt, Stop::Frame(fault))),
        };
        match class(record) {
            Class::DumpHeader => receipt.headers += 1,
            Class::DumpTrailer => receipt.trailers += 1,
            Class::DataLost => receipt.lost += 1,
            Class::Other => receipt.other += 1,
            Class::Continuation => receipt.continued += 1,
            Class::Damaged(_) => receipt.damaged += 1,
            Class::Usage if books.known.contains(record) => receipt.known += 1,
            Class::Usage if books.hold(Usage::read(record, rates)) => receipt.kept += 1,
            Class::Usage => return Ok((receipt, Stop::Full)),
        }
    }
}
