//! What a plain server keeps of its changes: rows of a table of SQLite. Whoever waits for it commits for all that wait.

use rusqlite::Connection;
use std::io::{Error, Result};
use std::sync::{Mutex, PoisonError};

#[derive(Default)]
struct Noted {
    rows: Vec<(String, String)>,
    count: u64,
}

struct Written {
    connection: Connection,
    count: u64,
}

pub struct Journal {
    noted: Mutex<Noted>,
    written: Mutex<Written>,
}

fn commit(connection: &mut Connection, rows: &[(String, String)]) -> rusqlite::Result<()> {
    let transaction = connection.transaction()?;
    {
        let mut insert = transaction.prepare_cached("INSERT INTO journal (point, what) VALUES (?1, ?2)")?;
        for (point, what) in rows {
            insert.execute([point, what])?;
        }
    }
    transaction.commit()
}

impl Journal {
    pub fn open(path: &str) -> Result<Journal> {
        let connection = Connection::open(path).map_err(Error::other)?;
        connection
            .execute_batch(
                "PRAGMA journal_mode = WAL; PRAGMA synchronous = FULL;
                 CREATE TABLE IF NOT EXISTS journal (number INTEGER PRIMARY KEY, point TEXT, what TEXT);",
            )
            .map_err(Error::other)?;
        Ok(Journal { noted: Mutex::default(), written: Mutex::new(Written { connection, count: 0 }) })
    }

    /// Notes what was done at a point.
    pub fn note(&self, point: &str, what: &str) {
        let mut noted = self.noted.lock().unwrap_or_else(PoisonError::into_inner);
        noted.rows.push((point.to_string(), what.to_string()));
        noted.count += 1;
    }

    /// Waits until all is on the disk that was noted by now.
    pub fn keep(&self) -> Result<()> {
        let wanted = self.noted.lock().unwrap_or_else(PoisonError::into_inner).count;
        let mut written = self.written.lock().unwrap_or_else(PoisonError::into_inner);
        if written.count >= wanted {
            return Ok(());
        }
        let (rows, count) = {
            let mut noted = self.noted.lock().unwrap_or_else(PoisonError::into_inner);
            (std::mem::take(&mut noted.rows), noted.count)
        };
        commit(&mut written.connection, &rows).map_err(Error::other)?;
        written.count = count;
        Ok(())
    }
}
