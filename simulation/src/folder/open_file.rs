use super::disk_failure::DiskFailure;
use super::simulated_disk::{locked, SharedDisk};
use std::path::PathBuf;

/// A file that SQLite has opened.
pub enum OpenFile {
    /// A file of a simulated disk. The first sync of a log also keeps the log's name, as SQLite does on Unix.
    OfDisk {
        disk: SharedDisk,
        number: u64,
        unsynced_folder: Option<PathBuf>,
    },
    /// A file without a name, which exists as long as it is open. It is on another disk.
    Temporary(Vec<u8>),
}

impl OpenFile {
    /// Reads as many bytes from this place on as there are, and returns how many.
    pub fn read(&mut self, at: usize, into: &mut [u8]) -> Result<usize, DiskFailure> {
        match self {
            OpenFile::OfDisk { disk, number, .. } => locked(disk).read(*number, at, into),
            OpenFile::Temporary(bytes) => {
                let from = bytes.get(at..).unwrap_or_default();
                let count = from.len().min(into.len());
                into[..count].copy_from_slice(&from[..count]);
                Ok(count)
            }
        }
    }

    pub fn write(&mut self, at: usize, written: &[u8]) -> Result<(), DiskFailure> {
        match self {
            OpenFile::OfDisk { disk, number, .. } => locked(disk).write(*number, at, written),
            OpenFile::Temporary(bytes) => {
                let end = at + written.len();
                bytes.resize(bytes.len().max(end), 0);
                bytes[at..end].copy_from_slice(written);
                Ok(())
            }
        }
    }

    pub fn set_length(&mut self, length: usize) -> Result<(), DiskFailure> {
        match self {
            OpenFile::OfDisk { disk, number, .. } => locked(disk).set_length(*number, length),
            OpenFile::Temporary(bytes) => {
                bytes.resize(length, 0);
                Ok(())
            }
        }
    }

    pub fn sync(&mut self) -> Result<(), DiskFailure> {
        let OpenFile::OfDisk {
            disk,
            number,
            unsynced_folder,
        } = self
        else {
            return Ok(());
        };
        let mut disk = locked(disk);
        disk.sync(*number)?;
        if let Some(folder) = unsynced_folder {
            disk.sync_folder(folder)?;
        }
        *unsynced_folder = None;
        Ok(())
    }

    pub fn length(&mut self) -> Result<usize, DiskFailure> {
        match self {
            OpenFile::OfDisk { disk, number, .. } => locked(disk).length(*number),
            OpenFile::Temporary(bytes) => Ok(bytes.len()),
        }
    }
}
