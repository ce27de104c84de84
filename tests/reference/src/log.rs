//! The port log that a run is lent, and the records of a log that is read.

use crate::numbers::LOG_FULL;

/// Bytes of one record: cycle (6, big-endian), port (2 to 8), value.
pub const RECORD: usize = 8;

/// a reset appends "one record with port 0, value 0".
pub const RESET: u8 = 0;

/// A record that is read, whatever its port and value.
#[derive(Clone, Copy, PartialEq, Eq, Debug)]
pub struct Record {
    /// Of 48 bits.
    pub cycle: u64,
    pub port: u8,
    pub value: u8,
}

impl Record {
    pub fn bytes(self) -> [u8; RECORD] {
        let mut bytes = [0; RECORD];
        bytes[..6].copy_from_slice(&self.cycle.to_be_bytes()[2..]);
        bytes[6] = self.port;
        bytes[7] = self.value;
        bytes
    }
}

/// The records of a log; what is left of one at its end is none.
pub fn records(log: &[u8]) -> impl DoubleEndedIterator<Item = Record> + '_ {
    log.chunks_exact(RECORD).map(|bytes| Record {
        cycle: bytes[..6]
            .iter()
            .fold(0, |cycle, &byte| cycle << 8 | u64::from(byte)),
        port: bytes[6],
        value: bytes[7],
    })
}

/// "A run starts at the lent log's first byte; each record it writes into the part of the log that
/// is still empty."
pub(crate) struct Log<'a> {
    empty: &'a mut [u8],
    written: usize,
}

impl<'a> Log<'a> {
    pub(crate) fn new(bytes: &'a mut [u8]) -> Log<'a> {
        Log {
            empty: bytes,
            written: 0,
        }
    }

    pub(crate) fn written(&self) -> usize {
        self.written
    }

    /// Stop 3: "the log lacks the 8 or 16 bytes of the next instruction".
    #[inline(always)]
    pub(crate) fn room(&self, records: usize) -> Result<(), u8> {
        if self.empty.len() >= records * RECORD {
            Ok(())
        } else {
            Err(LOG_FULL)
        }
    }

    /// Appends one record; its room has been looked at.
    #[inline(always)]
    pub(crate) fn append(&mut self, cycle: u64, port: u8, value: u8) {
        let record = cycle << 16 | u64::from(port) << 8 | u64::from(value);
        let (place, empty) = std::mem::take(&mut self.empty).split_at_mut(RECORD);
        place.copy_from_slice(&record.to_be_bytes());
        self.empty = empty;
        self.written += RECORD;
    }
}
