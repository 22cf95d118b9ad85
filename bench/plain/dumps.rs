//! Dumps, cut into records.

use crate::numbers::number2;
use std::io;
use std::io::{BufReader, Read};

pub const DESCRIPTOR_LEN: usize = 4;
pub const LONGEST_RECORD: usize = 65_535;

/// Kinds of segments: all of a record, and the last of several. A first one is 1, one between 3.
pub const COMPLETE: u8 = 0;
pub const LAST: u8 = 2;

#[derive(Clone, Copy, PartialEq)]
pub enum Layout {
    Rdw,
    Bdw,
}

#[derive(Clone, Copy)]
pub enum FrameFault {
    SegmentLength = 1,
    BlockLength,
    ExtendedBlock,
    SegmentCrossesBlock,
    OrphanSegment,
    MissingLast,
    RecordTooLong,
    Truncated,
}

/// How many bytes a read asks for, where no other number is given.
pub const PIECE: usize = 65_536;

/// Counts the reads of a reader.
struct Counted<R> {
    inner: R,
    reads: u64,
}

impl<R: Read> Read for Counted<R> {
    fn read(&mut self, bytes: &mut [u8]) -> io::Result<usize> {
        self.reads += 1;
        self.inner.read(bytes)
    }
}

/// Reads a dump record by record, and holds one at a time.
pub struct Dump<R> {
    layout: Layout,
    input: BufReader<Counted<R>>,
    /// What is left of the block: None where a block's descriptor is due, and always without blocks.
    left: Option<usize>,
    /// Segments of the record are still to come.
    is_begun: bool,
    /// The record, after four bytes.
    record: Vec<u8>,
}

impl<R: Read> Dump<R> {
    pub fn new(layout: Layout, input: R) -> Dump<R> {
        Dump::by_reads_of(PIECE, layout, input)
    }

    pub fn by_reads_of(bytes: usize, layout: Layout, input: R) -> Dump<R> {
        let input = BufReader::with_capacity(bytes, Counted { inner: input, reads: 0 });
        Dump { layout, input, left: None, is_begun: false, record: Vec::with_capacity(LONGEST_RECORD) }
    }

    /// The next record, its descriptor included.
    pub fn next(&mut self) -> io::Result<Result<Option<&[u8]>, FrameFault>> {
        Ok(match self.join()? {
            Ok(true) => Ok(Some(&self.record)),
            Ok(false) => Ok(None),
            Err(fault) => Err(fault),
        })
    }

    /// How often the dump was read.
    #[cfg(books)]
    pub fn reads(&self) -> u64 {
        self.input.get_ref().reads
    }

    /// Joins the next record; false at the end of the dump.
    fn join(&mut self) -> io::Result<Result<bool, FrameFault>> {
        loop {
            if self.left.is_some_and(|left| left < DESCRIPTOR_LEN) {
                return Ok(Err(FrameFault::SegmentCrossesBlock));
            }
            let mut descriptor = [0; DESCRIPTOR_LEN];
            match self.take(&mut descriptor)? {
                0 => return Ok(self.end()),
                DESCRIPTOR_LEN => {}
                _ => return Ok(Err(FrameFault::Truncated)),
            }
            let len = usize::from(number2(&descriptor, 0));
            let checked = if self.layout == Layout::Bdw && self.left.is_none() {
                self.open_block(&descriptor, len).map(|()| None)
            } else {
                self.check_segment(len, descriptor[2] % 4).map(|()| Some(descriptor[2] % 4))
            };
            match checked {
                Err(fault) => return Ok(Err(fault)),
                Ok(None) => {}
                Ok(Some(kind)) => match self.join_segment(kind, len - DESCRIPTOR_LEN)? {
                    Err(fault) => return Ok(Err(fault)),
                    Ok(true) => return Ok(Ok(true)),
                    Ok(false) => {}
                },
            }
        }
    }

    /// How many bytes there were of those asked for.
    fn take(&mut self, bytes: &mut [u8]) -> io::Result<usize> {
        let mut taken = 0;
        while taken < bytes.len() {
            match self.input.read(&mut bytes[taken..])? {
                0 => break,
                count => taken += count,
            }
        }
        Ok(taken)
    }

    fn end(&self) -> Result<bool, FrameFault> {
        if self.left.is_some() {
            Err(FrameFault::Truncated)
        } else if self.is_begun {
            Err(FrameFault::MissingLast)
        } else {
            Ok(false)
        }
    }

    fn open_block(&mut self, descriptor: &[u8], len: usize) -> Result<(), FrameFault> {
        if descriptor[0] >= 0x80 {
            return Err(FrameFault::ExtendedBlock);
        }
        if len < DESCRIPTOR_LEN {
            return Err(FrameFault::BlockLength);
        }
        self.left = Some(len - DESCRIPTOR_LEN).filter(|left| *left > 0);
        Ok(())
    }

    fn check_segment(&mut self, len: usize, kind: u8) -> Result<(), FrameFault> {
        let begins_record = kind < 2;
        if len < DESCRIPTOR_LEN {
            return Err(FrameFault::SegmentLength);
        }
        if self.left.is_some_and(|left| left < len) {
            return Err(FrameFault::SegmentCrossesBlock);
        }
        if self.is_begun && begins_record {
            return Err(FrameFault::MissingLast);
        }
        if !self.is_begun && !begins_record {
            return Err(FrameFault::OrphanSegment);
        }
        if self.is_begun && self.record.len() + len - DESCRIPTOR_LEN > LONGEST_RECORD {
            return Err(FrameFault::RecordTooLong);
        }
        self.left = self.left.map(|left| left - len).filter(|left| *left > 0);
        Ok(())
    }

    /// Joins the data of a segment; true where it completes the record.
    fn join_segment(&mut self, kind: u8, len: usize) -> io::Result<Result<bool, FrameFault>> {
        if !self.is_begun {
            self.record.clear();
            self.record.extend_from_slice(&[0; DESCRIPTOR_LEN]);
        }
        let at = self.record.len();
        self.record.resize(at + len, 0);
        let mut record = std::mem::take(&mut self.record);
        let taken = self.take(&mut record[at..])?;
        self.record = record;
        if taken < len {
            return Ok(Err(FrameFault::Truncated));
        }
        self.is_begun = kind != COMPLETE && kind != LAST;
        if !self.is_begun {
            let len = self.record.len() as u16;
            self.record[..2].copy_from_slice(&len.to_be_bytes());
        }
        Ok(Ok(!self.is_begun))
    }
}

/// Why no further record was handled.
pub enum Stop {
    End,
    Frame(FrameFault),
    Full,
}

impl Stop {
    pub fn text(&self) -> String {
        match self {
            Stop::End => "END".to_string(),
            Stop::Frame(fault) => format!("FRAME {}", *fault as u8),
            Stop::Full => "LEDGER 4".to_string(),
        }
    }
}
