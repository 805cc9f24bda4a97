//! Appends to a segment in memory, with the entry of bench/appends.h.
use std::path::PathBuf;

use ringwal::{ByteWalEntry, IoEngine, RealIo, SegmentManager, segment_path};

use crate::clock::measure;

/// So many appends are timed at once; then the file is empty again, with its memory kept.
const BATCH: u64 = 4096;

struct Log {
    io: RealIo,
    manager: SegmentManager<RealIo>,
}

fn dir() -> PathBuf {
    PathBuf::from("log")
}

fn opened() -> Log {
    let io = RealIo::default();
    let manager = SegmentManager::open(&dir(), u64::MAX, false, io.clone()).expect("the engine refuses nothing");
    Log { io, manager }
}

impl Log {
    fn append(&mut self, numbered: &(u64, Vec<u8>)) {
        self.manager.write_batch(std::slice::from_ref(numbered)).expect("the engine refuses nothing");
    }

    fn empty(&self) {
        self.io.write_file_bytes(&segment_path(&dir(), 1), &[]).expect("a file in memory");
    }
}

fn entry(number: u64) -> ByteWalEntry {
    ByteWalEntry::Insert {
        tx_id: number,
        timestamp: number,
        key: "setting.00042".to_string(),
        value: b"0123456789abcdef".to_vec(),
    }
}

fn encoded(entry: &ByteWalEntry) -> Vec<u8> {
    bincode::serialize(entry).expect("an entry has a payload")
}

fn raw() -> f64 {
    let mut log = opened();
    let batch: Vec<(u64, Vec<u8>)> = (1..=BATCH).map(|lsn| (lsn, encoded(&entry(lsn)))).collect();
    measure(|| {
        batch.iter().for_each(|numbered| log.append(numbered));
        log.empty();
    })
}

/// Encoded, then appended.
fn entries() -> f64 {
    let mut log = opened();
    let entries: Vec<ByteWalEntry> = (1..=BATCH).map(entry).collect();
    measure(|| {
        (1..).zip(&entries).for_each(|(lsn, entry)| log.append(&(lsn, encoded(entry))));
        log.empty();
    })
}

pub fn print() {
    println!("append {:e} {:e} 0 0 0 0", raw() / BATCH as f64, entries() / BATCH as f64);
}
