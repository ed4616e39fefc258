use crate::target::{holds, Target};
use durkenzo_store::{Embedded, Outcome, Store, Sync, Transaction};
use std::fs;
use std::path::{Path, PathBuf};

const FILE: &str = "durkenzo.sqlite";

/// The file of a store in a folder.
pub struct SqliteFile {
    room: PathBuf,
}

impl Target for SqliteFile {
    fn check(&mut self, input: &[u8]) -> Result<(), String> {
        let folder = self.emptied("torn").map_err(|it| it.to_string())?;
        fs::write(folder.join(FILE), input).map_err(|it| it.to_string())?;
        let Ok(store) = Embedded::in_folder(&folder, Sync::No) else {
            return Ok(());
        };
        // If bytes can't be read or written, the store says so.
        let _ = store.read_all(b"");
        let put = store.make(Transaction::new().put("fuzzing", "value"));
        if matches!(put, Ok(Outcome::Made(_))) {
            let read = store.read(&[b"fuzzing"]).map_err(|it| it.to_string())?;
            let found = read.get(b"fuzzing").map(|it| it.value.clone());
            holds(found.as_deref() == Some(b"value"), || {
                format!("it holds {found:?}")
            })?;
        }
        Ok(())
    }

    fn words(&self) -> &[&'static [u8]] {
        &[
            b"CREATE TABLE",
            b"BLOB",
            b"pairs",
            b"SQLite format 3\0",
            b"Durk",
        ]
    }

    fn seeds(&mut self) -> Vec<Vec<u8>> {
        self.seed().map_or_else(|_| Vec::new(), |it| vec![it])
    }
}

impl SqliteFile {
    pub fn new(room: &Path) -> SqliteFile {
        let room = room.to_owned();
        SqliteFile { room }
    }

    /// Returns an empty folder of this name.
    fn emptied(&self, name: &str) -> std::io::Result<PathBuf> {
        let folder = self.room.join(name);
        if folder.is_dir() {
            fs::remove_dir_all(&folder)?;
        }
        fs::create_dir(&folder)?;
        Ok(folder)
    }

    /// Returns a small file, whole.
    fn seed(&self) -> Result<Vec<u8>, Box<dyn std::error::Error>> {
        let folder = self.emptied("whole")?;
        let store = Embedded::in_folder(&folder, Sync::Always)?;
        for number in 0..8 {
            store.make(Transaction::new().put(format!("key/{number}"), "value"))?;
        }
        store.make(Transaction::new().delete("key/3"))?;
        drop(store);
        Ok(fs::read(folder.join(FILE))?)
    }
}
