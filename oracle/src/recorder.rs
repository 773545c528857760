//! Performs operations with the oracle and writes down what came of them.

use crate::program::{Operation, Seen, perform};
use crate::report::Report;
use crate::rules::DOCUMENT_01;
use crate::script::{LONGEST_PATCH, Record, expect, runs};

/// Holds the table as it stands between the calls of a script.
pub struct Recorder {
    pub table: Vec<u8>,
    pub records: Vec<Record>,
    pub report: Report,
    calls_left: usize,
}

impl Recorder {
    pub fn new(calls: usize) -> Recorder {
        Recorder {
            table: Vec::new(),
            records: Vec::new(),
            report: Report::default(),
            calls_left: calls,
        }
    }

    /// All calls asked for are made; further ones are passed over.
    pub fn is_full(&self) -> bool {
        self.calls_left == 0
    }

    /// Makes the table hold these bytes, by what is needed to get there.
    pub fn set_table(&mut self, bytes: &[u8]) {
        if self.is_full() {
            return;
        }
        if self.table.len() != bytes.len() || self.records.is_empty() {
            self.table = vec![0; bytes.len()];
            self.records.push(Record::SetTable(bytes.len() as u32));
        }
        for (offset, run) in runs(&self.table, bytes) {
            for (part, piece) in run.chunks(LONGEST_PATCH).enumerate() {
                self.records.push(Record::Patch {
                    offset: offset + (part * LONGEST_PATCH) as u32,
                    bytes: piece.to_vec(),
                });
            }
        }
        self.table.copy_from_slice(bytes);
    }

    /// Makes a call. `mark` asks for the digests of a table that is not small.
    pub fn call(&mut self, operation: Operation, mark: bool) -> Option<Seen> {
        self.calls_left = self.calls_left.checked_sub(1)?;
        let before = self.table.clone();
        let seen = perform(&mut DOCUMENT_01.clone(), &operation, &mut self.table);
        self.report.count(&operation, &before, &seen);
        let expected = expect(&operation, &seen, &before, &self.table, mark);
        self.records.push(Record::Call(operation, expected));
        Some(seen)
    }
}
