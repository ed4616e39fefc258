use std::io;
use std::path::PathBuf;
use thiserror::Error;

/// Why a folder can't be opened.
#[derive(Debug, Error)]
pub enum OpenError {
    /// The system refuses the folder.
    #[error("the folder {0} can't be used: {1}")]
    Folder(PathBuf, #[source] io::Error),
    /// Another process uses it.
    #[error("the folder {0} is in use by another process")]
    InUse(PathBuf),
    /// Its file isn't one of such a store.
    #[error("the file {0} isn't of this program")]
    Foreign(PathBuf),
    /// Its file has another format version.
    #[error(
        "the file {file} has version {found} of its form, and this program knows version {known}"
    )]
    OtherVersion {
        /// The file.
        file: PathBuf,
        /// The file's version.
        found: i64,
        /// This program's version.
        known: i64,
    },
    /// Its file was cut or changed.
    #[error("the file {0} is damaged: {1}")]
    Damaged(PathBuf, String),
    /// The disk is full.
    #[error("the disk of the folder {0} is full")]
    Full(PathBuf),
    /// SQLite refuses something else.
    #[error("the file {0} can't be opened: {1}")]
    Other(PathBuf, String),
}
