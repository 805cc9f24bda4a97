//! Random payloads for the raw call: good ones, with bytes left over, damaged, too long for the table, nested, and any bytes.
use ringwal::{ByteWalEntry, WalEntry, WalEntryHeader};

use crate::parts::{Entry, Parts};
use crate::random::Random;

/// The entry in the Rust's type. A key that is not UTF-8 stands for one that the kind doesn't have.
fn of(entry: Entry) -> ByteWalEntry {
    let (tx_id, timestamp) = (entry.tx, entry.time);
    let key = String::from_utf8(entry.key).unwrap_or_default();
    match entry.kind {
        0 => WalEntry::Insert { tx_id, timestamp, key, value: entry.new },
        1 => WalEntry::Update { tx_id, timestamp, key, old_value: entry.old, new_value: entry.new },
        2 => WalEntry::Delete { tx_id, timestamp, key, old_value: entry.old },
        3 => WalEntry::Commit { tx_id, timestamp },
        _ => WalEntry::Abort { tx_id, timestamp },
    }
}

fn payload(entry: &ByteWalEntry) -> Vec<u8> {
    bincode::serialize(entry).expect("an entry is written")
}

pub fn good(parts: &mut Parts, random: &mut Random) -> Vec<u8> {
    payload(&of(parts.entry(random)))
}

/// Key or values past the limits of entry call and table.
fn long(parts: &mut Parts, random: &mut Random) -> Vec<u8> {
    let mut entry = parts.entry(random);
    let (key, part) = (random.between(60, 70), random.between(250, 255));
    entry.key = vec![b'a'; key];
    entry.old = random.bytes(part);
    entry.new = random.bytes(part);
    payload(&of(entry))
}

fn header_and(payload: Vec<u8>) -> Vec<u8> {
    let mut bytes = WalEntryHeader::new(&payload).to_bytes().to_vec();
    bytes.extend(payload);
    bytes
}

/// Some bytes of a payload changed, most often in the fields: kind, lengths, the key's first bytes.
pub fn damage(payload: &mut [u8], random: &mut Random) {
    if payload.is_empty() {
        return;
    }
    let at = if random.chance(50) { random.below(payload.len().min(45)) } else { random.below(payload.len()) };
    let near = payload[at];
    let any = random.next() as u8;
    let bit = near ^ (1 << random.below(8));
    payload[at] = random.pick(&[0, 1, 5, 0x7f, 0x80, 0xff, near.wrapping_add(1), near.wrapping_sub(1), bit, any]);
}

/// Bytes as an entry's payload.
pub fn raw(parts: &mut Parts, random: &mut Random) -> Vec<u8> {
    let mut bytes = match random.weighted(&[3, 11, 3, 2, 1]) {
        0 => Vec::new(),
        1 => good(parts, random),
        2 => long(parts, random),
        3 => header_and(good(parts, random)),
        _ => {
            let n = random.pick(&[1, 4, 19, 20, 36, 300, 1_000, 4_095, 4_096]);
            random.bytes(n)
        }
    };
    match random.weighted(&[4, 2, 2, 3]) {
        0 => {}
        1 => bytes.truncate(random.below(bytes.len() + 1)),
        2 => {
            let left_over = random.pick(&[1, 2, 13, 40]);
            bytes.extend(random.bytes(left_over));
        }
        _ => damage(&mut bytes, random),
    }
    bytes.truncate(4_096);
    bytes
}

/// An image of its own: entries one after the other, or any bytes.
pub fn image(parts: &mut Parts, random: &mut Random) -> Vec<u8> {
    if random.chance(20) {
        let n = random.below(80);
        return random.bytes(n);
    }
    let count = random.below(5);
    let mut image: Vec<u8> = (0..count).flat_map(|_| header_and(good(parts, random))).collect();
    image.truncate(4_096);
    image
}
