//! The store: one SQLite file with what the core was given, in the order in which it was given.
//!
//! Its journal is a write-ahead log and each commit is synced, so what was committed outlives a loss of power. One
//! process at a time has the store, by a lock on a file beside it; `export` and `status` only read.

use crate::error::Error;
use crate::hex;
use crate::parcel::Parcel;
use highway::Digest;
use rusqlite::{Connection, OpenFlags, params};
use std::fs::File;
use std::path::{Path, PathBuf};

pub struct Store {
    connection: Connection,
    /// How often this process committed.
    pub commits: u64,
    /// The file whose lock says that this process has the store.
    _lock: Option<File>,
}

/// A stored vertex with the verdict on its signatures.
pub struct Stored {
    pub parcel: Parcel,
    pub verdict: bool,
    /// The unit that it is, where it is one and somebody has worked that out: it costs a hash of the whole vertex.
    pub unit: Option<Digest>,
}

const TABLES: &str = "
    CREATE TABLE IF NOT EXISTS network (instance TEXT NOT NULL, validator INTEGER NOT NULL);
    CREATE TABLE IF NOT EXISTS vertex (
        place INTEGER PRIMARY KEY, verdict INTEGER NOT NULL, bytes BLOB NOT NULL, signatures BLOB NOT NULL);
";

/// Makes the write-ahead log as long as it becomes before it begins again, and the file longer too. A commit then writes
/// over what is there: to sync that is cheaper than to sync a file that grows, and above all never takes long.
const ROOM: &str = "
    BEGIN; CREATE TABLE IF NOT EXISTS room (bytes BLOB NOT NULL); INSERT INTO room VALUES (zeroblob(4194304)); COMMIT;
    DROP TABLE room; PRAGMA wal_checkpoint(RESTART);
";

impl Store {
    /// The store of this validator of this instance; it is made where there is none.
    pub fn open(path: &Path, instance: &[u8; 32], me: u32) -> Result<Store, Error> {
        let lock = lock(path)?;
        let connection = Connection::open(path)?;
        connection.pragma_update(None, "journal_mode", "WAL")?;
        connection.pragma_update(None, "synchronous", "FULL")?;
        connection.execute_batch(TABLES)?;
        connection.execute_batch(ROOM)?;
        let store = Store { connection, commits: 0, _lock: Some(lock) };
        store.check(path, instance, me)?;
        Ok(store)
    }

    /// The store to read from, also while a node has it.
    pub fn look(path: &Path, instance: &[u8; 32], me: u32) -> Result<Store, Error> {
        let connection = Connection::open_with_flags(path, OpenFlags::SQLITE_OPEN_READ_ONLY)?;
        let store = Store { connection, commits: 0, _lock: None };
        store.check(path, instance, me)?;
        Ok(store)
    }

    /// Whose store it is. A new one is noted as this validator's.
    fn check(&self, path: &Path, instance: &[u8; 32], me: u32) -> Result<(), Error> {
        let mut query = self.connection.prepare("SELECT instance, validator FROM network")?;
        let mut rows = query.query([])?;
        let Some(row) = rows.next()? else {
            self.connection.execute("INSERT INTO network VALUES (?1, ?2)", params![hex::digits(instance), me])?;
            return Ok(());
        };
        let (kept, validator): (String, u32) = (row.get(0)?, row.get(1)?);
        if kept != hex::digits(instance) {
            return Err(Error::text(path, format!("this store is of another instance, {kept}")));
        }
        if validator != me {
            return Err(Error::text(path, format!("this store is of validator {validator}, and not of {me}")));
        }
        Ok(())
    }

    /// Commits vertices that the core took, all at once. They are on the disk when this returns.
    pub fn put(&mut self, vertices: &[Stored]) -> Result<(), Error> {
        let transaction = self.connection.transaction()?;
        {
            let mut insert =
                transaction.prepare_cached("INSERT INTO vertex (verdict, bytes, signatures) VALUES (?1, ?2, ?3)")?;
            for Stored { parcel, verdict, .. } in vertices {
                insert.execute(params![verdict, parcel.vertex, parcel.beside()])?;
            }
        }
        transaction.commit()?;
        self.commits += 1;
        Ok(())
    }

    /// At most so many stored vertices behind this place, each with its place.
    pub fn behind(&self, place: i64, most: u32) -> Result<Vec<(i64, Stored)>, Error> {
        let text = "SELECT place, verdict, bytes, signatures FROM vertex WHERE place > ?1 ORDER BY place LIMIT ?2";
        let mut query = self.connection.prepare_cached(text)?;
        let mut rows = query.query(params![place, most])?;
        let mut found = Vec::new();
        while let Some(row) = rows.next()? {
            let place: i64 = row.get(0)?;
            let parcel = Parcel::of_parts(row.get(2)?, &row.get::<_, Vec<u8>>(3)?);
            let parcel = parcel.ok_or_else(|| Error::Process(format!("the store: no signatures in row {place}")))?;
            found.push((place, Stored { parcel, verdict: row.get(1)?, unit: None }));
        }
        Ok(found)
    }

    /// How many vertices there are.
    pub fn count(&self) -> Result<u64, Error> {
        Ok(self.connection.query_row("SELECT count(*) FROM vertex", [], |row| row.get::<_, i64>(0))? as u64)
    }
}

/// Where the lock of a store is.
fn lock_path(path: &Path) -> PathBuf {
    path.with_extension("lock")
}

fn lock(path: &Path) -> Result<File, Error> {
    let at = lock_path(path);
    let file = File::options().create(true).append(true).open(&at).map_err(|error| Error::file(&at, error))?;
    match file.try_lock() {
        Ok(()) => Ok(file),
        Err(std::fs::TryLockError::WouldBlock) => Err(Error::InUse(path.to_owned())),
        Err(std::fs::TryLockError::Error(error)) => Err(Error::file(&at, error)),
    }
}
