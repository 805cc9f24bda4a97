//! The panel's lines, done on the Rust. A line that is bad, or asks for what lies outside document 01's domain, has no answer:
//! it is an error, and a script with one is no case.
use std::fmt::Write;
use std::path::Path;

use ringwal::{ByteWalEntry, IoEngine, RealIo, WalEntry, discover_segment_ids, segment_path};

use crate::hex;
use crate::lists::{self, Lists, SIZES};
use crate::log::{AREA, Log, RECORD, RECORDS};
use crate::recovery::{self, Recovery, Table};
use crate::words::{Outside, Words};

const TARGET: usize = 64;

pub struct Panel {
    pub log: Log,
    pub lists: Lists,
    /// What was printed.
    pub out: String,
}

fn utf8(bytes: Vec<u8>) -> Result<String, Outside> {
    String::from_utf8(bytes).map_err(|_| "not UTF-8".to_string())
}

/// The entry of a line `entry`, with the parts that its kind has.
fn entry(words: &Words) -> Result<ByteWalEntry, Outside> {
    let (tx_id, timestamp) = (words.number(3)?, words.number(4)?);
    let (key, old, new) = (words.bytes(5)?, words.bytes(6)?, words.bytes(7)?);
    let fits = |part: &Vec<u8>, most: usize| part.len() <= most;
    let refused = Err("refusal 3".to_string());
    Ok(match words.number(2)? {
        0 if fits(&key, 64) && fits(&new, 252) => WalEntry::Insert { tx_id, timestamp, key: utf8(key)?, value: new },
        1 if fits(&key, 64) && fits(&old, 252) && fits(&new, 252) => {
            WalEntry::Update { tx_id, timestamp, key: utf8(key)?, old_value: old, new_value: new }
        }
        2 if fits(&key, 64) && fits(&old, 252) => WalEntry::Delete { tx_id, timestamp, key: utf8(key)?, old_value: old },
        3 => WalEntry::Commit { tx_id, timestamp },
        4 => WalEntry::Abort { tx_id, timestamp },
        _ => return refused,
    })
}

/// A target of so many bytes, each 2a before the call.
fn target(bytes: &[u8], size: usize) -> Result<String, Outside> {
    let mut target = vec![0x2a; size];
    if size < bytes.len() {
        return Err("refusal 1: the target".to_string());
    }
    target[..bytes.len()].copy_from_slice(bytes);
    Ok(hex::print(&target))
}

fn name_of(path: &Path) -> &str {
    path.file_name().and_then(|name| name.to_str()).expect("a segment's name")
}

impl Panel {
    pub fn new() -> Self {
        Panel { log: Log::new(), lists: Lists::new(), out: String::new() }
    }

    fn say(&mut self, line: String) {
        self.out += &line;
        self.out.push('\n');
    }

    pub fn line(&mut self, text: &str) -> Result<(), Outside> {
        if text.is_empty() || text.starts_with('#') {
            return Ok(());
        }
        let words = Words::of(text);
        match words.shape() {
            ("bound", 1) | ("lend", 5) | ("used", 1) | ("area", 2) | ("directory", 2) | ("cut", 2) => self.set(&words),
            ("open", 0) | ("rotate", 0) | ("raw", 2) | ("entry", 7) => self.write(&words),
            ("recover", 0) | ("replay", 0) | ("checkpoint", 2) | ("truncate", 1) => self.read(&words),
            ("state", 0) | ("segments", 0) | ("image", 1) | ("name", 2) | ("reading", 1) | ("lists", 0) => self.show(&words),
            _ => Err("a bad line".to_string()),
        }
    }

    fn set(&mut self, words: &Words) -> Result<(), Outside> {
        match words.0[0] {
            "bound" => self.bound(words)?,
            "lend" => self.lend(words)?,
            "used" => self.used(words)?,
            "area" => Self::put(&mut self.log.area, words)?,
            "directory" => self.directory(words)?,
            _ => self.cut(words)?,
        }
        self.log.touch();
        self.say("ok".to_string());
        Ok(())
    }

    fn bound(&mut self, words: &Words) -> Result<(), Outside> {
        self.log.bound = Some(words.number(1)?);
        self.log.drop_writer();
        Ok(())
    }

    fn lend(&mut self, words: &Words) -> Result<(), Outside> {
        let [entries, transactions, table] = SIZES;
        let (area, directory) = (words.size(1, AREA)?, words.size(2, RECORDS * RECORD)?);
        let lists = [words.size(3, entries)?, words.size(4, transactions)?, words.size(5, table)?];
        self.log.lent = (area, directory);
        self.lists.lent = lists;
        Ok(())
    }

    fn used(&mut self, words: &Words) -> Result<(), Outside> {
        self.log.used = words.size(1, RECORDS)?;
        self.log.drop_writer();
        Ok(())
    }

    fn directory(&mut self, words: &Words) -> Result<(), Outside> {
        Self::put(&mut self.log.directory, words)?;
        self.log.drop_writer();
        Ok(())
    }

    fn put(buffer: &mut [u8], words: &Words) -> Result<(), Outside> {
        let place = words.size(1, buffer.len())?;
        let bytes = words.bytes(2)?;
        if buffer.len() - place < bytes.len() {
            return Err("bytes outside the buffer".to_string());
        }
        buffer[place..place + bytes.len()].copy_from_slice(&bytes);
        Ok(())
    }

    /// The power is gone: the writer too.
    fn cut(&mut self, words: &Words) -> Result<(), Outside> {
        self.log.test()?;
        let k = words.size(1, RECORDS - 1)?;
        if self.log.used <= k {
            return Err("no used record".to_string());
        }
        let length = words.size(2, self.log.record(k).length)?;
        self.log.cut(k, length);
        Ok(())
    }

    fn write(&mut self, words: &Words) -> Result<(), Outside> {
        match words.0[0] {
            "open" => {
                self.log.open()?;
                self.say(format!("opened {}", self.log.used));
            }
            "rotate" => {
                self.log.rotate()?;
                self.say(format!("rotated {}", self.log.used));
            }
            "raw" => self.append(words.number(1)?, words.bytes(2)?)?,
            _ => {
                let data = bincode::serialize(&entry(words)?).expect("an entry is written");
                self.append(words.number(1)?, data)?;
            }
        }
        Ok(())
    }

    fn append(&mut self, lsn: u64, data: Vec<u8>) -> Result<(), Outside> {
        let length = self.log.append(lsn, data)?;
        self.say(format!("appended {length}"));
        Ok(())
    }

    fn read(&mut self, words: &Words) -> Result<(), Outside> {
        match words.0[0] {
            "recover" => {
                let recovery = recovery::recover(&mut self.log)?;
                self.take(&recovery)?;
                self.say_recovered(&recovery);
            }
            "replay" => {
                let rows = self.lists.rows()?;
                let (recovery, table) = recovery::replay(&mut self.log, rows)?;
                self.take(&recovery)?;
                self.lists.set_table(&table);
                self.say_replayed(&recovery, &table);
            }
            "checkpoint" => self.checkpoint(words)?,
            _ => {
                let dropped = recovery::truncate(&mut self.log, words.number(1)?)?;
                self.say(format!("truncated {dropped}"));
            }
        }
        Ok(())
    }

    /// The lists hold a recovery's results.
    fn take(&mut self, recovery: &Recovery) -> Result<(), Outside> {
        self.lists.test(recovery)?;
        self.lists.set_recovery(recovery);
        Ok(())
    }

    fn say_report(&mut self, recovery: &Recovery) {
        let stats = &recovery.stats;
        self.say(format!("total {}", stats.total_transactions));
        self.say(format!("committed {}", stats.committed));
        self.say(format!("aborted {}", stats.aborted));
        self.say(format!("incomplete {}", stats.incomplete));
        self.say(format!("partial {}", stats.partial_writes));
        self.say(format!("checksum {}", stats.checksum_failures));
        let next = recovery.next.map_or("unchanged".to_string(), |next| next.to_string());
        self.say(format!("next {next}"));
    }

    fn say_recovered(&mut self, recovery: &Recovery) {
        self.say_report(recovery);
        for entry in &recovery.entries {
            writeln!(self.out, "entry {} {} {} {}", entry.tx_id, entry.place, entry.length, entry.kind).unwrap();
        }
        for found in &recovery.transactions {
            let action = lists::action(found.action);
            writeln!(self.out, "transaction {} {action} {}", found.tx_id, found.entries.len()).unwrap();
        }
        self.say("end".to_string());
    }

    fn say_replayed(&mut self, recovery: &Recovery, table: &Table) {
        self.say_report(recovery);
        for (key, value) in table {
            self.say(format!("set {} {}", hex::print(key), hex::print(value)));
        }
        self.say("end".to_string());
    }

    fn checkpoint(&mut self, words: &Words) -> Result<(), Outside> {
        let stored = words.bytes(1)?;
        let size = words.size(2, TARGET)?;
        target(&[0; 8], size)?;
        let recovery = recovery::recover(&mut self.log)?;
        self.take(&recovery)?;
        match recovery::checkpoint(&mut self.log, &stored)? {
            Some((number, bytes)) => self.say(format!("checkpoint {number} {}", target(&bytes, size)?)),
            None => self.say("refused 10".to_string()),
        }
        Ok(())
    }

    fn show(&mut self, words: &Words) -> Result<(), Outside> {
        match words.0[0] {
            "state" => {
                let [bound, count, first, last] = self.log.state()?;
                self.say(format!("state {bound} {count} {first} {last}"));
            }
            "segments" => self.segments()?,
            "image" => self.image(words)?,
            "name" => self.name(words)?,
            "reading" => self.reading(words)?,
            _ => {
                let [entries, transactions, table] = self.lists.checksums();
                self.say(format!("lists {entries:08x} {transactions:08x} {table:08x}"));
            }
        }
        Ok(())
    }

    fn segments(&mut self) -> Result<(), Outside> {
        self.log.lay()?;
        for record in self.log.records() {
            self.say(format!("segment {} {} {}", record.id, record.start, record.length));
        }
        self.say(format!("used {}", self.log.used));
        Ok(())
    }

    fn image(&mut self, words: &Words) -> Result<(), Outside> {
        self.log.lay()?;
        let k = words.size(1, RECORDS - 1)?;
        if self.log.used <= k {
            return Err("no used record".to_string());
        }
        let image = hex::print(&self.log.image(k));
        self.say(format!("image {image}"));
        Ok(())
    }

    fn name(&mut self, words: &Words) -> Result<(), Outside> {
        let path = segment_path(&self.log.dir, words.number(1)?);
        let name = name_of(&path);
        let target = target(name.as_bytes(), words.size(2, TARGET)?)?;
        self.say(format!("name {} {target}", name.len()));
        Ok(())
    }

    /// A folder with one file of that name.
    fn reading(&mut self, words: &Words) -> Result<(), Outside> {
        let name = utf8(words.bytes(1)?)?;
        if name.is_empty() || name == "." || name == ".." || name.contains(['/', '\0']) {
            return Err("no file can have that name".to_string());
        }
        let io = RealIo::default();
        io.write_file_bytes(&self.log.dir.join(&name), &[]).unwrap();
        let ids = discover_segment_ids(&self.log.dir, &io).expect("the engine refuses nothing");
        self.say(match ids.first() {
            None => "no name".to_string(),
            Some(id) if name_of(&segment_path(&self.log.dir, *id)) == name => format!("id {id} kept"),
            Some(id) => format!("id {id} other"),
        });
        Ok(())
    }
}
