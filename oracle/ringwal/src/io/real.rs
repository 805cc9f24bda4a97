//! An I/O engine whose files are in memory. Clones share them, and threads have their own if they make their own.
use std::collections::BTreeMap;
use std::io::{self, Error, ErrorKind, Read, Write};
use std::path::{Path, PathBuf};
use std::sync::{Arc, Mutex, MutexGuard};

use super::{DirEntry, FileHandle, IoEngine, ReadHandle};

type File = Arc<Mutex<Vec<u8>>>;

#[derive(Clone, Default)]
pub struct RealIo {
    files: Arc<Mutex<BTreeMap<PathBuf, File>>>,
}

fn bytes(file: &File) -> MutexGuard<'_, Vec<u8>> {
    file.lock().unwrap()
}

impl RealIo {
    fn find(&self, path: &Path) -> io::Result<File> {
        self.files.lock().unwrap().get(path).cloned().ok_or_else(|| Error::from(ErrorKind::NotFound))
    }

    fn find_or_create(&self, path: &Path) -> File {
        self.files.lock().unwrap().entry(path.to_path_buf()).or_default().clone()
    }
}

impl IoEngine for RealIo {
    type FileHandle = Appending;
    type ReadHandle = Reading;

    fn open_append(&self, path: &Path, _direct_io: bool) -> io::Result<Appending> {
        Ok(Appending(self.find_or_create(path)))
    }

    fn open_read(&self, path: &Path) -> io::Result<Reading> {
        Ok(Reading { file: self.find(path)?, at: 0 })
    }

    fn create_dir_all(&self, _path: &Path) -> io::Result<()> {
        Ok(())
    }

    fn read_dir(&self, path: &Path) -> io::Result<Vec<DirEntry>> {
        let files = self.files.lock().unwrap();
        let here = files.keys().filter(|file| file.parent() == Some(path));
        Ok(here.map(|file| DirEntry { file_name: name_of(file), path: file.clone() }).collect())
    }

    fn remove_file(&self, path: &Path) -> io::Result<()> {
        self.files.lock().unwrap().remove(path);
        Ok(())
    }

    fn write_file_bytes(&self, path: &Path, data: &[u8]) -> io::Result<()> {
        let file = self.find_or_create(path);
        let mut target = bytes(&file);
        target.clear();
        target.extend_from_slice(data);
        Ok(())
    }

    fn read_file_bytes(&self, path: &Path) -> io::Result<Vec<u8>> {
        Ok(bytes(&self.find(path)?).clone())
    }

    fn exists(&self, _path: &Path) -> bool {
        true
    }

    fn now_secs(&self) -> u64 {
        0
    }
}

fn name_of(path: &Path) -> String {
    path.file_name().unwrap_or_default().to_string_lossy().into_owned()
}

pub struct Appending(File);

impl Write for Appending {
    fn write(&mut self, data: &[u8]) -> io::Result<usize> {
        bytes(&self.0).extend_from_slice(data);
        Ok(data.len())
    }

    fn flush(&mut self) -> io::Result<()> {
        Ok(())
    }
}

impl FileHandle for Appending {
    fn sync_all(&mut self) -> io::Result<()> {
        Ok(())
    }

    fn sync_data(&mut self) -> io::Result<()> {
        Ok(())
    }

    fn try_clone_file(&self) -> io::Result<std::fs::File> {
        Err(Error::from(ErrorKind::Unsupported))
    }

    fn metadata_len(&self) -> io::Result<u64> {
        Ok(bytes(&self.0).len() as u64)
    }
}

pub struct Reading {
    file: File,
    at: usize,
}

impl Read for Reading {
    fn read(&mut self, target: &mut [u8]) -> io::Result<usize> {
        let file = bytes(&self.file);
        let n = (&file[self.at.min(file.len())..]).read(target)?;
        self.at += n;
        Ok(n)
    }
}

impl ReadHandle for Reading {
    fn metadata_len(&self) -> io::Result<u64> {
        Ok(bytes(&self.file).len() as u64)
    }
}
