//! Recovery and replay of the logs that the library's side wrote, from files in memory.
use std::fs;
use std::path::{Path, PathBuf};

use ringwal::{InMemoryStore, IoEngine, RealIo, RecoveredTransaction, RecoveryStats, apply_transactions, recover, segment_path};

use crate::clock::measure;

type Recovered = (Vec<RecoveredTransaction<String, Vec<u8>>>, RecoveryStats);
type Store = InMemoryStore<String, Vec<u8>>;

/// A log's files.
struct Log {
    name: String,
    io: RealIo,
}

fn dir() -> PathBuf {
    PathBuf::from("log")
}

fn number(field: &[u8]) -> u64 {
    u64::from_le_bytes(field.try_into().unwrap())
}

/// NAME.area has the bytes of the segments, NAME.directory a record of 24 bytes for each: id, start, length.
fn read(directory: &Path) -> Log {
    let area = fs::read(directory.with_extension("area")).expect("an area beside the directory");
    let records = fs::read(directory).expect("a directory");
    let io = RealIo::default();
    for record in records.chunks_exact(24) {
        let [id, start, length] = [0, 8, 16].map(|at| number(&record[at..at + 8]));
        let image = &area[start as usize..(start + length) as usize];
        io.write_file_bytes(&segment_path(&dir(), id), image).expect("a file in memory");
    }
    Log { name: directory.file_stem().unwrap().to_string_lossy().into_owned(), io }
}

fn recovered(log: &Log) -> Recovered {
    recover(&dir(), &log.io).expect("the engine refuses nothing")
}

/// By ascending number, as document 01 wants it.
fn replayed(log: &Log) -> (Recovered, Store) {
    let (mut transactions, stats) = recovered(log);
    transactions.sort_unstable_by_key(|transaction| transaction.tx_id);
    let mut store = Store::new();
    apply_transactions(&mut store, &transactions).expect("the store refuses nothing");
    ((transactions, stats), store)
}

/// The checksum of all keys and values, by ascending key.
fn table_crc(store: &Store) -> u32 {
    let mut rows: Vec<(String, Vec<u8>)> = store.snapshot().into_iter().collect();
    rows.sort_unstable();
    let mut hasher = crc32fast::Hasher::new();
    for (key, value) in &rows {
        hasher.update(key.as_bytes());
        hasher.update(value);
    }
    hasher.finalize()
}

fn print(log: &Log) {
    let ((_, stats), store) = replayed(log);
    let recovery = measure(|| recovered(log));
    let replay = measure(|| replayed(log));
    let (name, total, committed) = (&log.name, stats.total_transactions, stats.committed);
    println!("{name} {recovery:e} {replay:e} {total} {committed} {} {:08x}", store.len(), table_crc(&store));
}

/// A line for each log of the folder.
pub fn print_all(folder: &Path) {
    let files = fs::read_dir(folder).expect("the folder of the logs").map(|file| file.unwrap().path());
    let mut directories: Vec<PathBuf> = files.filter(|file| file.extension().is_some_and(|part| part == "directory")).collect();
    directories.sort();
    for directory in &directories {
        print(&read(directory));
    }
}
