//! The parts of random entries: log and transaction numbers, keys and values.
use crate::random::Random;

/// How a case draws its transaction numbers.
#[derive(Clone, Copy)]
enum Numbers {
    Few,
    Small,
    Rising,
    Falling,
    Many,
    Wide,
    Edges,
}

/// What a case draws from.
pub struct Parts {
    numbers: Numbers,
    turn: u64,
    keys: Vec<String>,
    drawn: Vec<u64>,
    lsn: u64,
    lsn_step: u64,
}

/// An entry as a line of the panel names it.
pub struct Entry {
    pub kind: u64,
    pub tx: u64,
    pub time: u64,
    pub key: Vec<u8>,
    pub old: Vec<u8>,
    pub new: Vec<u8>,
}

const EDGES: [u64; 12] = [0, 1, 2, 255, 256, 65_536, 1 << 32, (1 << 32) - 1, 1 << 63, (1 << 63) - 1, u64::MAX - 2, u64::MAX - 1];

fn character(random: &mut Random) -> char {
    let ranges = [(0, 0x7f), (0x61, 0x63), (0x80, 0x7ff), (0x800, 0xd7ff), (0xe000, 0xffff), (0x1_0000, 0x10_ffff)];
    let (low, high) = ranges[random.weighted(&[2, 6, 1, 1, 1, 1])];
    char::from_u32(random.between(low, high) as u32).expect("a scalar value")
}

fn key(random: &mut Random) -> String {
    let length = random.pick(&[0, 1, 1, 2, 3, 8, 31, 63, 64]);
    let mut key = String::new();
    while key.len() < length {
        let next = character(random);
        key.push(if key.len() + next.len_utf8() <= length { next } else { 'a' });
    }
    key
}

/// A few keys or many, some of them others with an end cut off or put on.
fn keys(random: &mut Random) -> Vec<String> {
    let mut keys = vec![key(random)];
    let most = [9, 60, 400][random.weighted(&[90, 8, 2])];
    for _ in 0..random.below(most) {
        let mut next = if random.chance(40) { random.pick(&keys) } else { key(random) };
        if random.chance(50) {
            next.pop();
        } else if next.len() <= 60 {
            next.push(character(random));
        }
        keys.push(next);
    }
    keys
}

fn value(random: &mut Random) -> Vec<u8> {
    let lengths = [0, 1, 2, 3, 4, 8, 17, random.below(253), 251, 252];
    let n = lengths[random.weighted(&[2, 6, 4, 2, 2, 2, 2, 2, 1, 1])];
    random.bytes(n)
}

impl Parts {
    pub fn new(random: &mut Random) -> Self {
        use Numbers::*;
        Parts {
            numbers: [Few, Small, Rising, Falling, Many, Wide, Edges][random.weighted(&[4, 4, 5, 2, 2, 1, 2])],
            turn: random.below(4) as u64,
            keys: keys(random),
            drawn: Vec::new(),
            lsn: random.pick(&[0, 1, 1, 1, 7, u64::MAX - 3]),
            lsn_step: random.pick(&[0, 1, 1, 1, 3]),
        }
    }

    pub fn lsn(&mut self, random: &mut Random) -> u64 {
        if random.chance(5) {
            let any = random.number();
            return random.pick(&[0, 1, u64::MAX, any]);
        }
        let lsn = self.lsn;
        self.lsn = lsn.wrapping_add(self.lsn_step);
        lsn
    }

    /// A number below 2^64 - 1.
    fn tx(&mut self, random: &mut Random) -> u64 {
        let tx = match self.numbers {
            Numbers::Few => 1 + random.below(3) as u64,
            Numbers::Small => random.below(10) as u64,
            Numbers::Rising => {
                self.turn += random.chance(30) as u64;
                self.turn
            }
            Numbers::Falling => {
                self.turn += random.chance(30) as u64;
                1_000 - self.turn.min(1_000)
            }
            Numbers::Many => random.below(1_000) as u64,
            Numbers::Wide => random.number().min(u64::MAX - 1),
            Numbers::Edges => random.pick(&EDGES),
        };
        self.drawn.push(tx);
        tx
    }

    /// A number that was drawn, or one beside it.
    pub fn near(&self, random: &mut Random) -> u64 {
        if self.drawn.is_empty() || random.chance(10) {
            let any = random.number();
            return random.pick(&[0, 1, u64::MAX, any]);
        }
        let tx = random.pick(&self.drawn);
        random.pick(&[tx.saturating_sub(1), tx, tx.saturating_add(1)])
    }

    /// A key, or sometimes one that is new.
    fn key(&mut self, random: &mut Random) -> Vec<u8> {
        if random.chance(3) {
            self.keys.push(key(random));
        }
        random.pick(&self.keys).into_bytes()
    }

    /// An entry with the parts that its kind has, and sometimes bytes where the kind has no part.
    pub fn entry(&mut self, random: &mut Random) -> Entry {
        let kind = random.weighted(&[35, 20, 15, 20, 10]) as u64;
        let mut entry = Entry {
            kind,
            tx: self.tx(random),
            time: random.number(),
            key: self.key(random),
            old: value(random),
            new: value(random),
        };
        let spare = if random.chance(10) { random.below(300) } else { 0 };
        if kind == 0 {
            entry.old = random.bytes(spare);
        }
        if kind >= 2 {
            entry.new = random.bytes(spare);
        }
        if kind >= 3 {
            entry.key = random.bytes(spare);
            entry.old = random.bytes(spare);
        }
        entry
    }
}
