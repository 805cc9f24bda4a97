//! Where a random case cuts or overwrites: at the entries' headers, beside them, inside them, and anywhere.
use ringwal::WalEntryHeader;

use crate::log::Log;
use crate::payloads;
use crate::random::Random;
use crate::walk::walk;

/// The offsets at which an entry, or the damage after the last good one, begins.
fn starts(image: &[u8]) -> Vec<usize> {
    let mut starts = vec![0];
    starts.extend(walk(image).steps.iter().map(|step| step.place + step.length));
    starts
}

/// A length that an image is cut to.
pub fn cut(image: &[u8], random: &mut Random) -> usize {
    let n = image.len();
    let start = random.pick(&starts(image));
    let inside = random.between(1, 60);
    let drawn = match random.weighted(&[1, 1, 2, 3, 3, 2, 2, 3, 3]) {
        0 => 0,
        1 => n,
        2 => n.saturating_sub(1),
        3 => start,
        4 => start + random.between(1, 12),
        5 => start + 13,
        6 => start.saturating_sub(1),
        7 => start + inside,
        _ => random.below(n + 1),
    };
    drawn.min(n)
}

/// A header's length: around what is left, and up to the largest whose sum with its offset stays below 2^64.
fn length(image: &[u8], start: usize, random: &mut Random) -> u64 {
    let place = (start + 13) as u64;
    let left = (image.len() as u64).saturating_sub(place);
    let most = u64::MAX - place;
    let any = random.number().min(most);
    random.pick(&[0, 1, left, left + 1, left.saturating_sub(1), 20, 38, 1 << 32, 1 << 63, most, most - 1, any])
}

/// The entry at an offset written anew: a damaged payload under a right checksum.
fn rewritten(image: &[u8], start: usize, random: &mut Random) -> Vec<u8> {
    let header = WalEntryHeader::from_bytes(image[start..start + 13].try_into().unwrap());
    let left = (image.len() - start - 13) as u64;
    let mut payload = image[start + 13..start + 13 + header.length.min(left) as usize].to_vec();
    payloads::damage(&mut payload, random);
    let mut bytes = WalEntryHeader::new(&payload).to_bytes().to_vec();
    bytes.extend(payload);
    bytes.truncate(4_096);
    bytes
}

/// What is written over an image, and where.
fn over(image: &[u8], random: &mut Random) -> (usize, Vec<u8>) {
    let n = image.len();
    let start = random.pick(&starts(image)).min(n - 1);
    let at = random.below(n);
    let headed = start + 13 <= n;
    match random.weighted(&[3, 3, 3, 3, 2, 2, 2]) {
        0 => {
            let count = random.between(1, 4);
            (at, random.bytes(count))
        }
        1 => (at, vec![image[at] ^ (1 << random.below(8))]),
        2 if headed => (start, length(image, start, random).to_le_bytes().to_vec()),
        3 if headed => (start, rewritten(image, start, random)),
        4 => (start + random.below(14), random.bytes(1)),
        5 => (start, vec![0; 12]),
        _ => {
            let count = random.between(1, 80);
            (at, vec![0; count])
        }
    }
}

/// A used segment's bytes written over. None if there are no bytes.
pub fn overwrite(log: &Log, random: &mut Random) -> Option<(usize, Vec<u8>)> {
    let filled: Vec<usize> = (0..log.used).filter(|k| log.record(*k).length > 0).collect();
    if filled.is_empty() {
        return None;
    }
    let k = random.pick(&filled);
    let (at, mut bytes) = over(&log.image(k), random);
    let end = log.records().last().map_or(0, |last| last.end());
    let place = log.record(k).start + at;
    bytes.truncate(end.saturating_sub(place));
    Some((place, bytes))
}
