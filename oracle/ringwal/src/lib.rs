//! The Rust, unchanged, with what it lacks: `io/real.rs` and the transaction counter of `writer.rs`.

// store.rs is of a second crate, and names this one.
extern crate self as ringwal;

mod writer;

include!(concat!(env!("OUT_DIR"), "/mount.rs"));

pub use entry::{ByteWalEntry, WalEntry, WalEntryHeader};
pub use error::WalError;
pub use io::{DirEntry, FileHandle, IoEngine, ReadHandle, RealIo};
pub use recovery::{
    RecoveredTransaction, RecoveryAction, RecoveryStats, checkpoint, read_checkpoint, recover, truncate_segments_before,
    write_checkpoint,
};
pub use segment::{SegmentManager, SegmentMeta, discover_segment_ids, segment_path};
pub use store::{InMemoryStore, WalStore, apply_transactions, recover_into_store};
pub use writer::take_reset;
