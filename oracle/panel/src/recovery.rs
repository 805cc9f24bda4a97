//! The Rust's recovery, checkpoint, truncation and replay of a log, with the places of the entries.
use std::collections::BTreeMap;

use ringwal::{
    ByteWalEntry, InMemoryStore, IoEngine, RecoveredTransaction, RecoveryAction, RecoveryStats, WalEntry, WalError, WalStore,
};

use crate::log::Log;
use crate::walk::{Stop, walk};
use crate::words::Outside;

pub type Transaction = RecoveredTransaction<String, Vec<u8>>;

/// Keys and values as bytes, by ascending key bytes.
pub type Table = BTreeMap<Vec<u8>, Vec<u8>>;

pub struct Listed {
    pub tx_id: u64,
    pub place: usize,
    pub length: usize,
    pub kind: u8,
}

pub struct Recovery {
    pub stats: RecoveryStats,
    /// What recovery set the transaction counter to, if it set it.
    pub next: Option<u64>,
    pub transactions: Vec<Transaction>,
    pub entries: Vec<Listed>,
}

pub fn kind(entry: &ByteWalEntry) -> u8 {
    match entry {
        WalEntry::Insert { .. } => 0,
        WalEntry::Update { .. } => 1,
        WalEntry::Delete { .. } => 2,
        WalEntry::Commit { .. } => 3,
        WalEntry::Abort { .. } => 4,
    }
}

/// The log lies inside document 01's domain: sums below 2^64, numbers below 2^64 - 1.
fn test(log: &Log) -> Result<(), Outside> {
    for k in 0..log.used {
        let walk = walk(&log.image(k));
        if walk.stop == Stop::SumOverflows {
            return Err("a header whose sum passes 2^64".to_string());
        }
        let mut entries = walk.steps.iter().filter_map(|step| step.entry.as_ref());
        if entries.any(|entry| entry.tx_id() == u64::MAX) {
            return Err("a number of 2^64 - 1".to_string());
        }
    }
    Ok(())
}

/// What the walks found, gathered as document 01 says.
#[derive(Default)]
struct Found {
    listed: Vec<Listed>,
    entries: BTreeMap<u64, Vec<ByteWalEntry>>,
    markers: BTreeMap<u64, RecoveryAction>,
    partial: usize,
    checksum: usize,
}

impl Found {
    fn take(&mut self, listed: Listed, entry: ByteWalEntry) {
        let of_number = self.entries.entry(listed.tx_id).or_default();
        if entry.is_commit() {
            self.markers.insert(listed.tx_id, RecoveryAction::Commit);
        } else if entry.is_abort() {
            self.markers.insert(listed.tx_id, RecoveryAction::Rollback);
        } else {
            of_number.push(entry);
        }
        self.listed.push(listed);
    }

    fn take_segment(&mut self, image: &[u8], start: usize) {
        let walk = walk(image).decoded();
        self.partial += usize::from(walk.stop == Stop::Partial);
        self.checksum += usize::from(walk.stop == Stop::Checksum);
        for step in walk.steps {
            let entry = step.entry.expect("a decoded walk");
            let place = start + step.place;
            let listed = Listed { tx_id: entry.tx_id(), place, length: step.length, kind: kind(&entry) };
            self.take(listed, entry);
        }
    }

    fn action(&self, tx_id: u64) -> RecoveryAction {
        self.markers.get(&tx_id).copied().unwrap_or(RecoveryAction::Incomplete)
    }

    /// The walks and the Rust's recovery agree in all that recovery shows.
    fn agrees(&self, stats: &RecoveryStats, transactions: &[Transaction]) -> bool {
        let same = |(tx, entries): (&Transaction, (&u64, &Vec<ByteWalEntry>))| {
            tx.tx_id == *entries.0 && tx.action == self.action(tx.tx_id) && tx.entries == *entries.1
        };
        self.partial == stats.partial_writes
            && self.checksum == stats.checksum_failures
            && self.entries.len() == transactions.len()
            && transactions.iter().zip(&self.entries).all(same)
    }
}

fn find(log: &Log) -> Found {
    let mut found = Found::default();
    for k in 0..log.used {
        found.take_segment(&log.image(k), log.record(k).start);
    }
    found
}

/// The Rust's recovery, its transactions sorted by number.
pub fn recover(log: &mut Log) -> Result<Recovery, Outside> {
    log.lay()?;
    test(log)?;
    ringwal::take_reset();
    let (mut transactions, stats) =
        ringwal::recover::<String, Vec<u8>, _>(&log.dir, &log.io).expect("the engine refuses nothing");
    let next = ringwal::take_reset();
    transactions.sort_by_key(|transaction| transaction.tx_id);
    let found = find(log);
    assert!(found.agrees(&stats, &transactions), "the oracle's walk and the Rust's recovery disagree");
    Ok(Recovery { stats, next, transactions, entries: found.listed })
}

/// The checkpoint and the bytes of its file, or none for refusal 10.
pub fn checkpoint(log: &mut Log, stored: &[u8]) -> Result<Option<(u64, Vec<u8>)>, Outside> {
    log.lay()?;
    test(log)?;
    let file = log.dir.join("checkpoint");
    log.io.write_file_bytes(&file, stored).unwrap();
    let answer = ringwal::checkpoint::<String, Vec<u8>, _>(&log.dir, &log.io);
    let bytes = log.io.read_file_bytes(&file).unwrap();
    log.io.remove_file(&file).unwrap();
    match answer {
        Ok(number) => Ok(Some((number, bytes))),
        Err(WalError::NoNewCheckpoints) => Ok(None),
        Err(error) => panic!("the engine refuses nothing: {error}"),
    }
}

pub fn truncate(log: &mut Log, checkpoint: u64) -> Result<usize, Outside> {
    log.lay()?;
    test(log)?;
    let dropped = ringwal::truncate_segments_before(&log.dir, checkpoint, &log.io).expect("the engine refuses nothing");
    log.take_up();
    Ok(dropped)
}

/// The Rust's store, watched for what document 01's table would refuse.
struct Watched {
    store: InMemoryStore<String, Vec<u8>>,
    most: usize,
    fits: bool,
}

impl WalStore<String, Vec<u8>> for Watched {
    fn apply(&mut self, entry: &ByteWalEntry) -> Result<(), WalError> {
        if let WalEntry::Insert { key, value, .. } | WalEntry::Update { key, new_value: value, .. } = entry {
            self.fits &= key.len() <= 64 && value.len() <= 252;
        }
        self.store.apply(entry)?;
        self.most = self.most.max(self.store.len());
        Ok(())
    }
}

/// The recovery, and the table that the Rust's store holds after it. The table has so many rows.
pub fn replay(log: &mut Log, rows: usize) -> Result<(Recovery, Table), Outside> {
    let recovery = recover(log)?;
    let mut watched = Watched { store: InMemoryStore::new(), most: 0, fits: true };
    ringwal::apply_transactions(&mut watched, &recovery.transactions).expect("the store refuses nothing");
    if !watched.fits || rows < watched.most {
        return Err("refusal 8 or 9: the table".to_string());
    }
    let table = watched.store.snapshot().into_iter().map(|(key, value)| (key.into_bytes(), value)).collect();
    Ok((recovery, table))
}
