//! Small logs, cut at every byte, torn at every byte of each segment with the later ones kept, and with every byte changed in
//! four ways.
use crate::compare::Comparison;
use crate::hex;
use crate::log::{RECORD, Record};
use crate::scribe::Scribe;

/// A log's bound and the lines that write it.
struct Small {
    name: &'static str,
    bound: u64,
    lines: &'static [&'static str],
}

const LOGS: [Small; 5] = [
    Small { name: "an insert and its commit", bound: 49_152, lines: &["entry 1 0 1 5 61 - 09", "entry 2 3 1 6 - - -"] },
    Small {
        name: "three transactions over several segments",
        bound: 100,
        lines: &[
            "entry 1 0 1 1 61 - 01",
            "entry 2 0 2 1 61 - 02",
            "entry 3 3 2 1 - - -",
            "entry 4 1 1 1 61 01 0304",
            "entry 5 2 2 1 6162 - -",
            "entry 6 3 1 1 - - -",
            "entry 7 0 3 1 - - -",
            "entry 8 4 3 1 - - -",
        ],
    },
    Small {
        name: "an entry to a segment",
        bound: 0,
        lines: &["entry 1 0 3 1 c3a9 - 01", "entry 2 3 3 1 - - -", "entry 3 2 2 1 c3a9 01 -", "entry 4 3 2 1 - - -"],
    },
    // An empty payload, one of kind 5, one with bytes left over, and one that holds a whole commit of 2 with its header.
    Small {
        name: "raw payloads",
        bound: 49_152,
        lines: &[
            "raw 1 -",
            "entry 2 3 9 1 - - -",
            "rotate",
            "entry 3 0 4 1 62 - 05",
            "raw 4 0500000001000000000000000100000000000000",
            "entry 5 3 4 1 - - -",
            "rotate",
            "raw 6 0300000004000000000000000100000000000000ffff",
            "raw 7 1400000000000000baf376eb010300000002000000000000000100000000000000",
        ],
    },
    Small {
        name: "markers twice, an entry after them, the least and the greatest number",
        bound: 150,
        lines: &[
            "entry 0 3 5 1 - - -",
            "entry 1 4 5 1 - - -",
            "entry 2 3 5 1 - - -",
            "entry 3 0 5 1 6b - 01",
            "entry 4 0 0 1 6b - 02",
            "entry 5 3 0 1 - - -",
            "entry 6 1 18446744073709551614 1 6b - 03",
            "entry 7 3 18446744073709551614 1 - - -",
        ],
    },
];

impl Small {
    fn write(&self, scribe: &mut Scribe) {
        scribe.say(format!("bound {}", self.bound));
        scribe.say("used 0");
        scribe.say("lend 1048576 98304 1280 960 6400");
        scribe.say("open");
        for line in self.lines {
            assert!(scribe.say(*line), "a line of the log is answered");
        }
    }

    /// The log's segments, and its bytes.
    fn written(&self) -> (Vec<Record>, Vec<u8>) {
        let mut scribe = Scribe::new();
        self.write(&mut scribe);
        let end = scribe.end();
        (scribe.panel.log.records(), scribe.panel.log.area[..end].to_vec())
    }

    fn case(&self, comparison: &mut Comparison, change: String) -> bool {
        comparison.case(format!("{}; {change}", self.name), |scribe| {
            self.write(scribe);
            if scribe.say(change) {
                read(scribe);
                go_on(scribe);
            }
        })
    }
}

fn read(scribe: &mut Scribe) {
    for line in ["segments", "recover", "replay", "lists", "checkpoint - 8", "checkpoint 0100000000000000 8"] {
        scribe.say(line);
    }
}

/// A restart, more entries, and a truncation.
fn go_on(scribe: &mut Scribe) {
    for line in ["open", "entry 20 3 1 9 - - -", "entry 21 0 6 9 61 - ff", "entry 22 3 6 9 - - -", "state"] {
        scribe.say(line);
    }
    for line in ["recover", "replay", "truncate 4", "segments", "recover", "truncate 18446744073709551615", "segments", "replay"]
    {
        scribe.say(line);
    }
}

fn changes(segments: &[Record], bytes: &[u8]) -> Vec<String> {
    let mut changes = Vec::new();
    for (k, segment) in segments.iter().enumerate() {
        for n in 0..=segment.length {
            changes.push(format!("cut {k} {n}"));
            changes.push(format!("directory {} {}", k * RECORD + 16, hex::print(&n.to_le_bytes())));
        }
    }
    for (place, byte) in bytes.iter().enumerate() {
        let other = [byte ^ 0x01, byte ^ 0x80, byte ^ 0xff, byte.wrapping_add(1)];
        changes.extend(other.map(|byte| format!("area {place} {byte:02x}")));
    }
    changes
}

/// False at a difference, which is printed.
pub fn run(comparison: &mut Comparison) -> bool {
    for log in &LOGS {
        let (segments, bytes) = log.written();
        if !changes(&segments, &bytes).into_iter().all(|change| log.case(comparison, change)) {
            return false;
        }
        eprintln!("{}: {} segments, {} bytes", log.name, segments.len(), bytes.len());
    }
    true
}
