//! Random cases. A case is a script of the panel, made line by line beside the Rust that answers it, so that cuts and damage
//! are put where something stands. It begins by giving the bound, the lent sizes and an empty directory, and looks at nothing
//! that stood before; it depends on its seed alone.
use crate::hex;
use crate::lists::{ENTRY, ROW, SIZES, TRANSACTION};
use crate::log::{AREA, RECORD, RECORDS};
use crate::names;
use crate::parts::Parts;
use crate::payloads;
use crate::places;
use crate::random::Random;
use crate::recovery;
use crate::scribe::Scribe;

/// Bytes of a log that a case doesn't pass, and of a log whose images are all shown at the end.
const MOST_LOG: usize = 400_000;
const MOST_SHOWN: usize = 10_000;

struct Case<'a> {
    scribe: &'a mut Scribe,
    random: Random,
    parts: Parts,
    /// The bytes that are lent of entry list, transactions and table.
    lists: [usize; 3],
    /// Whether there are payloads that can't be decoded, and bytes written over. A log without has more to replay.
    is_damaged: bool,
    has_replayed: bool,
}

fn sizes(random: &mut Random) -> [usize; 3] {
    let [entries, transactions, rows] = [[400, 200, 60], [60, 30, 12]][random.weighted(&[3, 1])];
    if random.chance(1) { SIZES } else { [ENTRY * entries, TRANSACTION * transactions, ROW * rows] }
}

fn lend(area: usize, directory: usize, lists: [usize; 3]) -> String {
    let [entries, transactions, table] = lists;
    format!("lend {area} {directory} {entries} {transactions} {table}")
}

fn bound(random: &mut Random) -> u64 {
    let low = random.between(1, 60);
    let middle = random.between(60, 600);
    let high = random.between(600, 6_000);
    [0, low as u64, middle as u64, high as u64, 49_152, u64::MAX][random.weighted(&[3, 3, 6, 4, 3, 1])]
}

/// Writes the case of a seed.
pub fn write(scribe: &mut Scribe, seed: u64) {
    let mut random = Random::new(seed);
    let parts = Parts::new(&mut random);
    let lists = sizes(&mut random);
    let is_damaged = random.chance(50);
    let mut case = Case { scribe, random, parts, lists, is_damaged, has_replayed: false };
    case.begin();
    let (low, high) = [(3, 12), (10, 40), (40, 120), (300, 400), (1_500, 2_500)][case.random.weighted(&[400, 450, 140, 9, 1])];
    for _ in 0..case.random.between(low, high) {
        case.step();
    }
    case.end();
}

impl Case<'_> {
    fn begin(&mut self) {
        let bound = bound(&mut self.random);
        self.scribe.say(format!("bound {bound}"));
        self.scribe.say("used 0");
        self.scribe.say(lend(AREA, RECORD * RECORDS, self.lists));
        if self.random.chance(12) {
            self.found();
        }
        self.scribe.say("open");
    }

    /// A log that the writer did not write: some records with images of their own, and gaps between them.
    fn found(&mut self) {
        let count = self.random.between(1, 3);
        let mut id = names::id(&mut self.random).min(u64::MAX - 4);
        let mut at = 0;
        for k in 0..count {
            let image = payloads::image(&mut self.parts, &mut self.random);
            let start = at + self.random.pick(&[0, 0, 1, 50]);
            self.scribe.say(format!("area {start} {}", hex::print(&image)));
            let fields = [id, start as u64, image.len() as u64];
            let record: Vec<u8> = fields.iter().flat_map(|field| field.to_le_bytes()).collect();
            self.scribe.say(format!("directory {} {}", k * RECORD, hex::print(&record)));
            at = start + image.len();
            id += if id < u64::MAX / 2 { self.random.pick(&[1, 1, 2, 100]) } else { 1 };
        }
        self.scribe.say(format!("used {count}"));
    }

    fn step(&mut self) {
        match self.random.weighted(&[50, 9, 4, 2, 6, 6, 3, 4, 4, 4, 3, 2, 2, 1, 2, 2, 1, 2]) {
            0 => self.entry(),
            1 => self.raw(),
            2 => self.bare("rotate"),
            3 => self.bare("open"),
            4 => self.cut(),
            5 if self.is_damaged => self.overwrite(),
            5 => self.replay(),
            6 => self.bare("state"),
            7 => self.bare("recover"),
            8 => self.replay(),
            9 => self.checkpoint(),
            10 => self.truncate(),
            11 => self.tight(),
            12 => self.image(),
            13 => self.bare("segments"),
            14 => self.name(),
            15 => self.reading(),
            16 => self.new_bound(),
            _ => self.last_room(),
        }
    }

    fn bare(&mut self, line: &str) {
        self.scribe.say(line);
    }

    fn entry(&mut self) {
        let lsn = self.parts.lsn(&mut self.random);
        let entry = self.parts.entry(&mut self.random);
        if self.scribe.end() < MOST_LOG {
            let (key, old, new) = (hex::print(&entry.key), hex::print(&entry.old), hex::print(&entry.new));
            self.scribe.say(format!("entry {lsn} {} {} {} {key} {old} {new}", entry.kind, entry.tx, entry.time));
        }
    }

    fn payload(&mut self) -> Vec<u8> {
        let write = if self.is_damaged { payloads::raw } else { payloads::good };
        write(&mut self.parts, &mut self.random)
    }

    fn raw(&mut self) {
        let lsn = self.parts.lsn(&mut self.random);
        let payload = self.payload();
        if self.scribe.end() < MOST_LOG {
            self.scribe.say(format!("raw {lsn} {}", hex::print(&payload)));
        }
    }

    /// An append that fills the lent area, with one directory record to spare.
    fn last_room(&mut self) {
        let lsn = self.parts.lsn(&mut self.random);
        let payload = self.payload();
        let area = self.scribe.end() + 13 + payload.len();
        if area < MOST_LOG {
            self.scribe.say(lend(area, RECORD * (self.scribe.panel.log.used + 1), self.lists));
            self.scribe.say(format!("raw {lsn} {}", hex::print(&payload)));
            self.scribe.say(lend(AREA, RECORD * RECORDS, self.lists));
        }
    }

    fn new_bound(&mut self) {
        let bound = bound(&mut self.random);
        self.scribe.say(format!("bound {bound}"));
        self.scribe.say("open");
    }

    /// The power is cut, most often in the last segment, and the log opened again, before or after it is read.
    fn cut(&mut self) {
        let used = self.scribe.panel.log.used;
        if used == 0 {
            return;
        }
        let k = if self.random.chance(70) { used - 1 } else { self.random.below(used) };
        let length = places::cut(&self.scribe.panel.log.image(k), &mut self.random);
        self.scribe.say(format!("cut {k} {length}"));
        if self.random.chance(60) {
            self.bare("recover");
        }
        self.bare("open");
    }

    fn overwrite(&mut self) {
        if let Some((place, bytes)) = places::overwrite(&self.scribe.panel.log, &mut self.random) {
            self.scribe.say(format!("area {place} {}", hex::print(&bytes)));
            if self.random.chance(60) {
                self.bare("recover");
            }
        }
    }

    fn replay(&mut self) {
        self.has_replayed |= self.scribe.say("replay");
        self.show_lists();
    }

    /// `lists` tells of the table too, so it waits for a replay of this case.
    fn show_lists(&mut self) {
        if self.has_replayed && self.random.chance(40) {
            self.bare("lists");
        }
    }

    fn checkpoint(&mut self) {
        let near = self.parts.near(&mut self.random).to_le_bytes();
        let n = self.random.below(12);
        let any = self.random.bytes(n);
        let stored = [near.to_vec(), vec![0; 8], Vec::new(), any][self.random.weighted(&[6, 2, 1, 2])].clone();
        let size = self.random.pick(&[8, 8, 9, 20, 64]);
        self.scribe.say(format!("checkpoint {} {size}", hex::print(&stored)));
        self.show_lists();
    }

    fn truncate(&mut self) {
        let checkpoint = self.parts.near(&mut self.random);
        self.scribe.say(format!("truncate {checkpoint}"));
        if self.random.chance(50) {
            self.bare("segments");
        }
    }

    /// Buffers that are exactly full.
    fn tight(&mut self) {
        let log = &mut self.scribe.panel.log;
        let Ok((found, table)) = recovery::replay(log, SIZES[2] / ROW) else {
            return;
        };
        let lists = [ENTRY * found.entries.len(), TRANSACTION * found.transactions.len(), ROW * table.len()];
        let line = lend(self.scribe.end(), RECORD * self.scribe.panel.log.used, lists);
        self.scribe.say(line);
        let call = self.random.pick(&["recover", "replay", "replay", "checkpoint - 8"]);
        self.bare(call);
        self.scribe.say(lend(AREA, RECORD * RECORDS, self.lists));
    }

    fn image(&mut self) {
        let used = self.scribe.panel.log.used;
        if used > 0 {
            let k = self.random.below(used);
            self.scribe.say(format!("image {k}"));
        }
    }

    fn name(&mut self) {
        let id = names::id(&mut self.random);
        let size = self.random.between(28, 64);
        self.scribe.say(format!("name {id} {size}"));
    }

    fn reading(&mut self) {
        let name = names::name(&mut self.random);
        self.scribe.say(format!("reading {}", hex::print(&name)));
    }

    fn end(&mut self) {
        self.bare("state");
        self.bare("segments");
        for k in 0..self.scribe.panel.log.used {
            if self.scribe.end() <= MOST_SHOWN || self.random.chance(5) {
                self.scribe.say(format!("image {k}"));
            }
        }
        self.bare("recover");
        self.replay();
    }
}
