//! The controller's side: the area and the directory as document 01 lends them, and the Rust's files, which are the images of
//! the used records. What a line writes into area or directory is laid into the files before the next call, and what a call
//! does to the files is taken up after it.
use std::collections::BTreeSet;
use std::path::PathBuf;

use ringwal::{IoEngine, ReadHandle, RealIo, SegmentManager, discover_segment_ids, segment_path};

use crate::words::Outside;

pub const AREA: usize = 1_048_576;
pub const RECORDS: usize = 4_096;
pub const RECORD: usize = 24;

#[derive(Clone, Copy, PartialEq)]
pub struct Record {
    pub id: u64,
    pub start: usize,
    pub length: usize,
}

impl Record {
    pub fn end(self) -> usize {
        self.start + self.length
    }
}

/// A call of the writer. They are kept, since the Rust shows the active segment's state only by sealing it.
enum Call {
    Rotate,
    Append(u64, Vec<u8>),
}

struct Writer {
    manager: SegmentManager<RealIo>,
    calls: Vec<Call>,
}

pub struct Log {
    pub io: RealIo,
    pub dir: PathBuf,
    pub area: Vec<u8>,
    pub directory: Vec<u8>,
    pub used: usize,
    pub bound: Option<u64>,
    /// How many bytes of area and directory are lent.
    pub lent: (usize, usize),
    writer: Option<Writer>,
    is_laid: bool,
}

fn number(bytes: &[u8]) -> u64 {
    u64::from_le_bytes(bytes.try_into().unwrap())
}

/// As `SegmentManager::write_batch` is given it.
fn call(manager: &mut SegmentManager<RealIo>, call: &Call) {
    match call {
        Call::Rotate => manager.rotate(),
        Call::Append(lsn, data) => manager.write_batch(&[(*lsn, data.clone())]),
    }
    .expect("the engine refuses nothing");
}

impl Log {
    pub fn new() -> Self {
        Log {
            io: RealIo::default(),
            dir: PathBuf::from("log"),
            area: vec![0; AREA],
            directory: vec![0; RECORDS * RECORD],
            used: 0,
            bound: None,
            lent: (AREA, RECORDS * RECORD),
            writer: None,
            is_laid: true,
        }
    }

    fn fields(&self, k: usize) -> [u64; 3] {
        let record = &self.directory[k * RECORD..][..RECORD];
        [number(&record[0..8]), number(&record[8..16]), number(&record[16..24])]
    }

    /// A used record of a directory that keeps the rule.
    pub fn record(&self, k: usize) -> Record {
        let [id, start, length] = self.fields(k);
        Record { id, start: start as usize, length: length as usize }
    }

    pub fn records(&self) -> Vec<Record> {
        (0..self.used).map(|k| self.record(k)).collect()
    }

    fn put_record(&mut self, k: usize, record: Record) {
        let fields = [record.id, record.start as u64, record.length as u64];
        let bytes: Vec<u8> = fields.iter().flat_map(|field| field.to_le_bytes()).collect();
        self.directory[k * RECORD..][..RECORD].copy_from_slice(&bytes);
    }

    /// The bytes of the Rust's file for a used record, once the records are laid.
    pub fn image(&self, k: usize) -> Vec<u8> {
        self.io.read_file_bytes(&segment_path(&self.dir, self.record(k).id)).expect("a used record has its file")
    }

    /// The lent area and directory are not refused (1 and 2), and the ids lie inside the domain.
    pub fn test(&self) -> Result<(), Outside> {
        let (area, directory) = self.lent;
        if directory % RECORD != 0 || directory / RECORD < self.used {
            return Err("refusal 1 or 2: the directory".to_string());
        }
        let mut from = 0;
        let mut below = None;
        for k in 0..self.used {
            let [id, start, length] = self.fields(k);
            let rises = below.is_none_or(|last| last < id);
            if !rises || start < from || (area as u64) < start || area as u64 - start < length {
                return Err("refusal 2: the directory's rule".to_string());
            }
            if id == u64::MAX {
                return Err("an id of 2^64 - 1".to_string());
            }
            from = start + length;
            below = Some(id);
        }
        Ok(())
    }

    /// The writer is gone: a new bound, a cut, or another directory.
    pub fn drop_writer(&mut self) {
        self.writer = None;
    }

    /// Record k is the last used one, cut to a length.
    pub fn cut(&mut self, k: usize, length: usize) {
        let record = self.record(k);
        self.put_record(k, Record { length, ..record });
        self.used = k + 1;
        self.writer = None;
    }

    /// Area or directory were written to.
    pub fn touch(&mut self) {
        self.is_laid = false;
    }

    /// Gives the Rust the used records as files.
    pub fn lay(&mut self) -> Result<(), Outside> {
        self.test()?;
        if self.is_laid {
            return Ok(());
        }
        self.remove_others();
        for record in self.records() {
            let bytes = &self.area[record.start..record.end()];
            self.io.write_file_bytes(&segment_path(&self.dir, record.id), bytes).unwrap();
        }
        self.is_laid = true;
        Ok(())
    }

    fn remove_others(&mut self) {
        let named = |record: &Record| segment_path(&self.dir, record.id);
        let files: BTreeSet<PathBuf> = self.records().iter().map(named).collect();
        let others = self.io.read_dir(&self.dir).unwrap().into_iter().filter(|file| !files.contains(&file.path));
        others.for_each(|file| self.io.remove_file(&file.path).unwrap());
    }

    /// The Rust's files by ascending id. A file without a record is a new segment, at the last end.
    fn files(&self) -> Vec<Record> {
        let mut ids = discover_segment_ids(&self.dir, &self.io).unwrap();
        ids.sort_unstable();
        let records = self.records();
        let mut end = records.last().map_or(0, |last| last.end());
        let mut files = Vec::new();
        for id in ids {
            let file = self.io.open_read(&segment_path(&self.dir, id)).unwrap();
            let start = records.iter().find(|record| record.id == id).map_or(end, |record| record.start);
            let length = file.metadata_len().unwrap() as usize;
            files.push(Record { id, start, length });
            end = end.max(start + length);
        }
        files
    }

    /// Takes up what a call did to the files: they can be added, removed or grow. Freed records become zero.
    pub fn take_up(&mut self) {
        let files = self.files();
        let before = self.records();
        for k in files.len()..self.used {
            self.put_record(k, Record { id: 0, start: 0, length: 0 });
        }
        self.used = files.len();
        for (k, record) in files.into_iter().enumerate() {
            self.put_record(k, record);
            if !before.contains(&record) {
                let bytes = self.image(k);
                self.area[record.start..record.end()].copy_from_slice(&bytes);
            }
        }
    }

    /// A new segment and so many bytes have room, and the new id lies inside the domain. (It is asked for also where the
    /// writer goes on in its segment.)
    fn room(&self, bytes: usize) -> Result<(), Outside> {
        let (area, directory) = self.lent;
        let records = self.records();
        if directory / RECORD <= self.used || area - records.last().map_or(0, |last| last.end()) < bytes {
            return Err("refusal 5: no room".to_string());
        }
        if records.last().is_some_and(|last| last.id == u64::MAX - 1) {
            return Err("a new id of 2^64 - 1".to_string());
        }
        Ok(())
    }

    pub fn open(&mut self) -> Result<(), Outside> {
        let bound = self.bound.ok_or("no bound was given")?;
        self.lay()?;
        self.room(0)?;
        let manager = SegmentManager::open(&self.dir, bound, false, self.io.clone()).expect("the engine refuses nothing");
        self.writer = Some(Writer { manager, calls: Vec::new() });
        self.take_up();
        Ok(())
    }

    fn call(&mut self, next: Call) -> Result<(), Outside> {
        self.lay()?;
        self.room(if let Call::Append(_, data) = &next { 13 + data.len() } else { 0 })?;
        let writer = self.writer.as_mut().ok_or("no writer is open")?;
        call(&mut writer.manager, &next);
        writer.calls.push(next);
        self.take_up();
        Ok(())
    }

    pub fn rotate(&mut self) -> Result<(), Outside> {
        self.call(Call::Rotate)
    }

    /// The length that the append has written: by how much the last segment grew, or the whole of a new one.
    pub fn append(&mut self, lsn: u64, data: Vec<u8>) -> Result<usize, Outside> {
        let before = self.used;
        let length = self.records().last().map_or(0, |record| record.length);
        self.call(Call::Append(lsn, data))?;
        let after = self.record(self.used - 1).length;
        Ok(if before == self.used { after - length } else { after })
    }

    /// Bound, entry count, first and last log number of the active segment. A second writer makes the same calls over files of
    /// its own, and is sealed.
    pub fn state(&self) -> Result<[u64; 4], Outside> {
        let bound = self.bound.ok_or("no bound was given")?;
        let writer = self.writer.as_ref().ok_or("no writer is open")?;
        let mut second = SegmentManager::open(&self.dir, bound, false, RealIo::default()).expect("an empty folder");
        for next in &writer.calls {
            call(&mut second, next);
        }
        call(&mut second, &Call::Rotate);
        let sealed = second.sealed_segments().last().expect("a sealed segment");
        Ok([bound, sealed.entry_count, sealed.first_lsn, sealed.last_lsn])
    }
}
