//! What the Rust does outside document 01's domain. Each input is run, and what happens is printed.
use std::panic::{self, AssertUnwindSafe};
use std::path::Path;

use ringwal::{ByteWalEntry, InMemoryStore, IoEngine, RealIo, SegmentManager, WalEntry, WalEntryHeader, segment_path};

type Store = InMemoryStore<String, Vec<u8>>;

const RUNS: usize = 10_000;

fn dir() -> &'static Path {
    Path::new("log")
}

fn file(io: &RealIo, name: &str, entries: &[ByteWalEntry]) {
    let mut bytes = Vec::new();
    for entry in entries {
        let data = bincode::serialize(entry).expect("an entry is written");
        bytes.extend(WalEntryHeader::new(&data).to_bytes());
        bytes.extend(data);
    }
    io.write_file_bytes(&dir().join(name), &bytes).unwrap();
}

fn insert(tx_id: u64, key: &str, value: u8) -> ByteWalEntry {
    WalEntry::Insert { tx_id, timestamp: 1, key: key.to_string(), value: vec![value] }
}

fn commit(tx_id: u64) -> ByteWalEntry {
    WalEntry::Commit { tx_id, timestamp: 1 }
}

fn names(io: &RealIo) -> String {
    let files = io.read_dir(dir()).unwrap();
    files.iter().map(|file| file.file_name.as_str()).collect::<Vec<_>>().join(", ")
}

/// What a call answers, or that it panics and with which words.
fn tried(call: impl FnOnce() -> String) -> String {
    panic::set_hook(Box::new(|_| {}));
    let answer = panic::catch_unwind(AssertUnwindSafe(call));
    let _ = panic::take_hook();
    answer.unwrap_or_else(|payload| {
        let words = payload.downcast_ref::<String>().cloned();
        format!("panics: {}", words.or(payload.downcast_ref::<&str>().map(|text| text.to_string())).unwrap_or_default())
    })
}

fn recovered(io: &RealIo) -> String {
    tried(|| {
        ringwal::take_reset();
        let (mut found, stats) = ringwal::recover::<String, Vec<u8>, _>(dir(), io).expect("the engine refuses nothing");
        let next = ringwal::take_reset();
        found.sort_by_key(|tx| tx.tx_id);
        let counts: Vec<_> = found.iter().map(|tx| format!("{} {:?} {}", tx.tx_id, tx.action, tx.entries.len())).collect();
        format!(
            "partial {}, checksum {}, counter {next:?}, [{}]",
            stats.partial_writes,
            stats.checksum_failures,
            counts.join("; ")
        )
    })
}

fn header_lengths() {
    for length in [u64::MAX, u64::MAX - 12, u64::MAX - 13] {
        let io = RealIo::default();
        let header = WalEntryHeader { length, checksum: 0, version: 1 };
        io.write_file_bytes(&segment_path(dir(), 1), &header.to_bytes()).unwrap();
        println!("one segment, a header alone, length {length}: recover: {}", recovered(&io));
        file(&io, "wal-00000002.log", &[]);
        let truncated = tried(|| format!("{:?}", ringwal::truncate_segments_before(dir(), 9, &io)));
        println!("  and an empty segment 2: truncate_segments_before 9: {truncated}");
    }
}

fn greatest_number() {
    for tx_id in [u64::MAX - 1, u64::MAX] {
        let io = RealIo::default();
        file(&io, "wal-00000001.log", &[commit(tx_id)]);
        println!("commit of {tx_id}: recover: {}", recovered(&io));
    }
}

fn greatest_id() {
    for id in [u64::MAX - 1, u64::MAX] {
        let io = RealIo::default();
        file(&io, &format!("wal-{id}.log"), &[commit(1)]);
        let opened = tried(|| {
            let mut manager = SegmentManager::open(dir(), 0, false, io.clone()).expect("the engine refuses nothing");
            let opened = manager.active_segment_id();
            manager.rotate().expect("the engine refuses nothing");
            format!("active {opened}, after rotate {}", manager.active_segment_id())
        });
        println!("segment {id}: open: {opened}; files {}", names(&io));
    }
}

fn names_kept_twice() {
    for other in ["wal-1.log", "wal-+1.log"] {
        let io = RealIo::default();
        file(&io, "wal-00000001.log", &[insert(1, "a", 9), commit(1)]);
        file(&io, other, &[]);
        println!("insert and commit of 1 in wal-00000001.log, {other} empty: recover: {}", recovered(&io));
    }
    let io = RealIo::default();
    file(&io, "wal-1.log", &[insert(1, "a", 9), commit(1)]);
    println!("insert and commit of 1 in wal-1.log alone: recover: {}", recovered(&io));
    let io = RealIo::default();
    file(&io, "wal-00000001.log", &[commit(1)]);
    file(&io, "wal-00000002.log", &[commit(2)]);
    file(&io, "wal-2.log", &[]);
    let removed = ringwal::truncate_segments_before(dir(), 9, &io).expect("the engine refuses nothing");
    println!("commit of 1 in wal-00000001.log, of 2 in wal-00000002.log, wal-2.log empty:");
    println!("  truncate_segments_before 9: removed {removed}; files left: {}", names(&io));
}

fn order() {
    let io = RealIo::default();
    file(&io, "wal-00000001.log", &[insert(1, "a", 1), commit(1), insert(2, "a", 2), commit(2)]);
    let old = (0..RUNS).filter(|_| {
        let mut store = Store::new();
        ringwal::recover_into_store::<String, Vec<u8>, _, _>(dir(), &mut store, &io).expect("the engine refuses nothing");
        store.get(&"a".to_string()) == Some(vec![1])
    });
    println!(
        "1 sets a to 1 and commits, then 2 sets a to 2 and commits: recover_into_store leaves 1 in {} of {RUNS} runs",
        old.count()
    );
}

/// Not outside the domain, and the same in both: a transaction that is open over a checkpoint loses its entries.
fn open_over_a_checkpoint() {
    let io = RealIo::default();
    file(&io, "wal-00000001.log", &[insert(1, "a", 9)]);
    file(&io, "wal-00000002.log", &[commit(2)]);
    let checkpoint = ringwal::checkpoint::<String, Vec<u8>, _>(dir(), &io).expect("a new checkpoint");
    let removed = ringwal::truncate_segments_before(dir(), checkpoint, &io).expect("the engine refuses nothing");
    file(&io, "wal-00000003.log", &[commit(1)]);
    println!(
        "insert of 1 in segment 1, commit of 2 in 2; checkpoint {checkpoint}, truncation removes {removed}; commit of 1 in 3:"
    );
    println!("  recover: {}", recovered(&io));
}

pub fn run() {
    header_lengths();
    greatest_number();
    greatest_id();
    names_kept_twice();
    order();
    open_over_a_checkpoint();
}
