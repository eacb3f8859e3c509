//! What a plain server keeps of its changes: lines appended to a file. Whoever waits for it writes and syncs for all that wait.

use std::fs::{File, OpenOptions};
use std::io::{Result, Write};
use std::sync::{Mutex, PoisonError};

#[derive(Default)]
struct Noted {
    lines: Vec<u8>,
    count: u64,
}

struct Written {
    file: File,
    count: u64,
}

pub struct Journal {
    noted: Mutex<Noted>,
    written: Mutex<Written>,
}

impl Journal {
    pub fn open(path: &str) -> Result<Journal> {
        let file = OpenOptions::new().append(true).create(true).open(path)?;
        Ok(Journal { noted: Mutex::default(), written: Mutex::new(Written { file, count: 0 }) })
    }

    /// Notes what was done at a point.
    pub fn note(&self, point: &str, what: &str) {
        let mut noted = self.noted.lock().unwrap_or_else(PoisonError::into_inner);
        noted.lines.extend_from_slice(point.as_bytes());
        noted.lines.push(b' ');
        noted.lines.extend_from_slice(what.as_bytes());
        noted.lines.push(b'\n');
        noted.count += 1;
    }

    /// Waits until all is on the disk that was noted by now.
    pub fn keep(&self) -> Result<()> {
        let wanted = self.noted.lock().unwrap_or_else(PoisonError::into_inner).count;
        let mut written = self.written.lock().unwrap_or_else(PoisonError::into_inner);
        if written.count >= wanted {
            return Ok(());
        }
        let (lines, count) = {
            let mut noted = self.noted.lock().unwrap_or_else(PoisonError::into_inner);
            (std::mem::take(&mut noted.lines), noted.count)
        };
        written.file.write_all(&lines)?;
        written.file.sync_data()?;
        written.count = count;
        Ok(())
    }
}
