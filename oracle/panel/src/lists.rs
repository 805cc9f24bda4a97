//! The lent lists as document 01 lays them out, from what the Rust found, for the line `lists`.

use ringwal::RecoveryAction;

use crate::recovery::{Listed, Recovery, Table, Transaction};
use crate::words::Outside;

pub const ENTRY: usize = 32;
pub const TRANSACTION: usize = 24;
pub const ROW: usize = 320;

/// What the panel has of entry list, transactions and table.
pub const SIZES: [usize; 3] = [524_288, 98_304, 327_680];

/// The three buffers, and how many bytes of each are lent.
pub struct Lists {
    pub lent: [usize; 3],
    buffers: [Vec<u8>; 3],
}

pub fn action(action: RecoveryAction) -> u8 {
    match action {
        RecoveryAction::Incomplete => 0,
        RecoveryAction::Commit => 1,
        RecoveryAction::Rollback => 2,
    }
}

fn fill(record: &mut [u8], at: usize, bytes: &[u8]) {
    record[at..at + bytes.len()].copy_from_slice(bytes);
}

fn entry(listed: &Listed) -> [u8; ENTRY] {
    let mut record = [0; ENTRY];
    fill(&mut record, 0, &listed.tx_id.to_le_bytes());
    fill(&mut record, 8, &listed.place.to_le_bytes());
    fill(&mut record, 16, &listed.length.to_le_bytes());
    record[24] = listed.kind;
    record
}

fn transaction(found: &Transaction) -> [u8; TRANSACTION] {
    let mut record = [0; TRANSACTION];
    fill(&mut record, 0, &found.tx_id.to_le_bytes());
    record[8] = action(found.action);
    fill(&mut record, 16, &found.entries.len().to_le_bytes());
    record
}

fn row(key: &[u8], value: &[u8]) -> [u8; ROW] {
    let mut record = [0; ROW];
    record[0] = 1;
    record[1] = key.len() as u8;
    fill(&mut record, 2, &(value.len() as u16).to_le_bytes());
    fill(&mut record, 4, key);
    fill(&mut record, 68, value);
    record
}

impl Lists {
    pub fn new() -> Self {
        Lists { lent: SIZES, buffers: SIZES.map(|size| vec![0; size]) }
    }

    /// The records from the front of what is lent, and zeros after them.
    fn set(&mut self, k: usize, records: Vec<u8>) {
        let lent = &mut self.buffers[k][..self.lent[k]];
        lent.fill(0);
        fill(lent, 0, &records);
    }

    /// The lists are lent as whole records, and hold what was found.
    pub fn test(&self, recovery: &Recovery) -> Result<(), Outside> {
        let [entries, transactions, _] = self.lent;
        let whole = entries % ENTRY == 0 && transactions % TRANSACTION == 0;
        if !whole || entries / ENTRY < recovery.entries.len() || transactions / TRANSACTION < recovery.transactions.len() {
            return Err("refusal 1, 6 or 7: the lists".to_string());
        }
        Ok(())
    }

    pub fn rows(&self) -> Result<usize, Outside> {
        if self.lent[2] % ROW == 0 { Ok(self.lent[2] / ROW) } else { Err("refusal 1: the table".to_string()) }
    }

    pub fn set_recovery(&mut self, recovery: &Recovery) {
        self.set(0, recovery.entries.iter().flat_map(entry).collect());
        self.set(1, recovery.transactions.iter().flat_map(transaction).collect());
    }

    pub fn set_table(&mut self, table: &Table) {
        self.set(2, table.iter().flat_map(|(key, value)| row(key, value)).collect());
    }

    /// The checksums of what is lent.
    pub fn checksums(&self) -> [u32; 3] {
        std::array::from_fn(|k| crc32fast::hash(&self.buffers[k][..self.lent[k]]))
    }
}
