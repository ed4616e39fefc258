use super::checksum::RowChecksum;
use super::disk::{make_folders, Disk};
use super::reserve::{Kept, Reserve};
use super::tables::{Means, TableFailure, Tables};
use super::unsynced_log::UnsyncedLog;
use super::{OpenError, Sync};
use crate::{LeaseId, Pair, Revision, Room};
use rusqlite::config::DbConfig;
use rusqlite::{params, Connection, ErrorCode, OpenFlags, OptionalExtension, Row};
use std::io;
use std::path::{Path, PathBuf};

/// The name of the file in the folder.
const FILE: &str = "durkenzo.sqlite";
/// The end of the name of SQLite's log, behind the name of the file.
const LOG: &str = "-wal";
/// The mark that the file is ours.
const APPLICATION: i64 = 0x4475_726b;
/// The version of the file's format.
const VERSION: i64 = 3;
/// The earlier version, whose rows don't say when their keys were created.
const UNDATED: i64 = 2;
/// The version before that, whose rows have no checksums.
const UNSUMMED: i64 = 1;
const SCHEMA: &str = "
    CREATE TABLE pairs (key BLOB PRIMARY KEY NOT NULL, value BLOB NOT NULL, revision INTEGER NOT NULL, lease INTEGER,
        checksum INTEGER, created INTEGER, created_checksum INTEGER);
    CREATE INDEX leased ON pairs (lease) WHERE lease IS NOT NULL;
    CREATE TABLE moment (revision INTEGER NOT NULL, checksum INTEGER);
    INSERT INTO moment (revision) VALUES (0);
";
/// Older rows have no checksum until they are written again.
const SUMMED: &str = "
    ALTER TABLE pairs ADD COLUMN checksum INTEGER;
    ALTER TABLE moment ADD COLUMN checksum INTEGER;
    ALTER TABLE pairs ADD COLUMN created INTEGER;
    ALTER TABLE pairs ADD COLUMN created_checksum INTEGER;
";
/// Older keys have [`FIRST`] until they are deleted.
const DATED: &str = "
    ALTER TABLE pairs ADD COLUMN created INTEGER;
    ALTER TABLE pairs ADD COLUMN created_checksum INTEGER;
";
/// The creation revision of keys from an earlier version, which kept none.
const FIRST: Revision = Revision(1);
/// An overwritten key keeps the revision of its creation, and that revision's checksum.
const PUT: &str = "
    INSERT INTO pairs (key, value, revision, lease, checksum, created, created_checksum)
    VALUES (?1, ?2, ?3, ?4, ?5, ?6, ?7)
    ON CONFLICT (key) DO UPDATE SET value = excluded.value, revision = excluded.revision, lease = excluded.lease,
        checksum = excluded.checksum
    RETURNING created
";

/// Why nothing is written although there is a little room left.
const KEPT_BACK: &str = "the disk is full, but for what is kept back so that keys can be deleted";
/// The most pages of SQLite's log before they go to the tables.
const LOG_PAGES: u64 = 1_000;

/// Tables in an SQLite file that only this process uses.
pub(super) struct Sqlite {
    connection: Connection,
    reserve: Reserve,
    /// The part of the reserve that is lent to a transaction, if any is, and how much was reserved before.
    lent: Option<(Means, Kept)>,
    /// The room that the transaction under way may use, and how many pages there were before it, if that matters.
    under_way: (Room, u64),
    page_size: u64,
    moment: Revision,
    /// SQLite's log, if it is synced by this store only.
    unsynced: Option<UnsyncedLog>,
    is_written: bool,
}

impl Sqlite {
    /// Opens the file of a folder, or makes it. Keys under a lease are deleted.
    pub(super) fn open(disk: &dyn Disk, folder: &Path, sync: Sync) -> Result<Sqlite, OpenError> {
        make_folders(disk, folder).map_err(|error| OpenError::Folder(folder.to_owned(), error))?;
        let file = folder.join(FILE);
        opened(disk, folder, &file, sync).map_err(|error| match error {
            NotOpened::Sqlite(error) => open_error(folder, file, &error),
            NotOpened::Form(error) => error(file),
            NotOpened::Folder(error) => OpenError::Folder(folder.to_owned(), error),
        })
    }
}

/// Why a file can't be opened.
enum NotOpened {
    Sqlite(rusqlite::Error),
    Form(Box<dyn FnOnce(PathBuf) -> OpenError>),
    Folder(io::Error),
}

/// The format of a file before it is used.
#[derive(Clone, Copy, PartialEq, Eq)]
enum Form {
    New,
    /// Its rows have no checksums.
    Unsummed,
    /// Its rows don't say when their keys were created.
    Undated,
    Latest,
}

impl Form {
    /// Returns the statements that give such a file the latest format, if it doesn't have it.
    fn bettering(self) -> Option<&'static str> {
        match self {
            Form::New | Form::Latest => None,
            Form::Unsummed => Some(SUMMED),
            Form::Undated => Some(DATED),
        }
    }
}

impl From<rusqlite::Error> for NotOpened {
    fn from(error: rusqlite::Error) -> NotOpened {
        NotOpened::Sqlite(error)
    }
}

fn opened(disk: &dyn Disk, folder: &Path, file: &Path, sync: Sync) -> Result<Sqlite, NotOpened> {
    let connection = connected(disk, file)?;
    let form = form(&connection)?;
    // If the log couldn't be synced once, the system may hold what the disk never gets, and says of a later sync that
    // all is well. The tables must not get ahead of the log.
    let log = file.with_file_name(format!("{FILE}{LOG}"));
    disk.write_again(&log).map_err(NotOpened::Folder)?;
    begin_log(&connection)?;
    connection.pragma_update(None, "synchronous", level(sync))?;
    if form == Form::New {
        let marks = format!("PRAGMA application_id = {APPLICATION};");
        connection.execute_batch(&bettered(&format!("{SCHEMA} {marks}")))?;
    }
    look_through(&connection)?;
    let mut reserve = Reserve::open(disk, folder).map_err(NotOpened::Folder)?;
    if let Some(schema) = form.bettering() {
        // A full disk may have room for it in the reserve.
        reserve.lend(Kept::Nothing);
        connection.execute_batch(&bettered(schema))?;
        reserve.take_back();
    }
    let moment = moment_without_leases(&connection)?;
    // The writes of a killed process may be in memory only, so they are read only once they are on the disk. If the
    // tables have no room for them, the log has them there.
    match moved_log(&connection, &mut reserve) {
        Err(error) if error.sqlite_error_code() == Some(ErrorCode::DiskFull) => {}
        moved => moved?,
    }
    // The process before may have deleted its log as it ended. If that came back once power is lost, it would make what
    // this process reads as not made.
    disk.sync_folder(folder).map_err(NotOpened::Folder)?;
    let page_size = count(&connection, "page_size")?;
    // The log's pages must fit into the tables with the reserve.
    let most_pages = (reserve.half() / page_size).clamp(1, LOG_PAGES);
    let unsynced = match sync {
        Sync::Second => {
            // SQLite cuts its log when it begins it anew, so the log's length tells how much of it isn't moved.
            connection.pragma_update(None, "journal_size_limit", 0)?;
            let most = most_pages * page_size;
            Some(UnsyncedLog::new(disk.length_of(&log), most))
        }
        Sync::Always | Sync::No => None,
    };
    let most_of_sqlite = unsynced.as_ref().map_or(most_pages, |_| 0);
    connection.pragma_update(None, "wal_autocheckpoint", most_of_sqlite)?;
    keep_log(&connection, false)?;
    Ok(Sqlite {
        connection,
        reserve,
        lent: None,
        under_way: (Room::Free, 0),
        page_size,
        moment,
        unsynced,
        is_written: true,
    })
}

/// Connects to the file. Its log stays as it is if it isn't opened after all.
fn connected(disk: &dyn Disk, file: &Path) -> rusqlite::Result<Connection> {
    let connection = match disk.sqlite_name() {
        Some(name) => Connection::open_with_flags_and_vfs(file, OpenFlags::default(), name)?,
        None => Connection::open(file)?,
    };
    keep_log(&connection, true)?;
    connection.set_prepared_statement_cache_capacity(32);
    connection.pragma_update(None, "locking_mode", "EXCLUSIVE")?;
    // SQLite advises this for files that may be corrupt.
    connection.pragma_update(None, "trusted_schema", "OFF")?;
    connection.pragma_update(None, "cell_size_check", "ON")?;
    // Debian's SQLite overwrites each page that becomes free, which takes as much room as the deleted data.
    connection.pragma_update(None, "secure_delete", "FAST")?;
    Ok(connection)
}

/// Says whether the log stays as it is when the connection is closed, or goes to the tables. It must stay if it
/// couldn't be synced: the process that opens the folder next writes it again.
fn keep_log(connection: &Connection, stays: bool) -> rusqlite::Result<bool> {
    connection.set_db_config(DbConfig::SQLITE_DBCONFIG_NO_CKPT_ON_CLOSE, stays)
}

/// Returns SQLite's name of it.
fn level(sync: Sync) -> &'static str {
    match sync {
        Sync::Always => "FULL",
        Sync::Second => "NORMAL",
        Sync::No => "OFF",
    }
}

/// Makes changes go to SQLite's log first. The file is written only when the statement's end is asked for: a caller
/// that takes only the first row doesn't learn that it failed. SQLite then says "wal", and goes on without a log.
fn begin_log(connection: &Connection) -> Result<(), NotOpened> {
    let mut pragma = connection.prepare("PRAGMA journal_mode = WAL")?;
    let mut rows = pragma.query([])?;
    let mode: Option<String> = rows.next()?.map(|row| row.get(0)).transpose()?;
    while rows.next()?.is_some() {}
    match mode.as_deref() {
        Some("wal") => Ok(()),
        _ => Err(NotOpened::Form(Box::new(|file| {
            OpenError::Other(file, "its changes can't be logged".to_owned())
        }))),
    }
}

/// Moves SQLite's log to its tables, which may use the reserve meanwhile, and returns the log's room.
fn moved_log(connection: &Connection, reserve: &mut Reserve) -> rusqlite::Result<()> {
    reserve.lend(Kept::Nothing);
    let truncate = "PRAGMA wal_checkpoint(TRUNCATE)";
    // If that fails, the log stays as it is, and it is tried again.
    let moved = connection.query_row(truncate, [], |_| Ok(()));
    reserve.take_back();
    moved
}

/// Refuses a damaged file. A faster check doesn't see that an index has lost a key, which then couldn't be read.
fn look_through(connection: &Connection) -> Result<(), NotOpened> {
    let check = "integrity_check";
    let found: String = connection.pragma_query_value(None, check, |row| row.get(0))?;
    match &*found {
        "ok" => Ok(()),
        _ if is_unread(&found) => Err(NotOpened::Form(Box::new(|file| {
            OpenError::Other(file, found)
        }))),
        _ => Err(damaged(found)),
    }
}

/// Returns whether a check found a page that couldn't be read, so that its content isn't known. SQLite says that only
/// in words.
fn is_unread(found: &str) -> bool {
    let unread = ["failed to get page", "unable to get the page"];
    unread.iter().any(|it| found.contains(it))
}

fn damaged(why: String) -> NotOpened {
    NotOpened::Form(Box::new(|file| OpenError::Damaged(file, why)))
}

/// Returns the statements that give the file this schema, all in one transaction.
fn bettered(schema: &str) -> String {
    format!("BEGIN IMMEDIATE; {schema} PRAGMA user_version = {VERSION}; COMMIT")
}

/// Returns the count with this name in SQLite.
fn count(connection: &Connection, name: &str) -> rusqlite::Result<u64> {
    connection.pragma_query_value(None, name, |row| row.get(0))
}

/// Returns the format of the file. Refuses a file that isn't ours, or has another version.
fn form(connection: &Connection) -> Result<Form, NotOpened> {
    let tables = "SELECT count(*) = 0 FROM sqlite_schema";
    let is_new = connection.query_row(tables, [], |row| row.get(0))?;
    let number = |name| connection.pragma_query_value(None, name, |row| row.get::<_, i64>(0));
    let (application, found) = (number("application_id")?, number("user_version")?);
    let known = VERSION;
    match application {
        APPLICATION if found == known => Ok(Form::Latest),
        APPLICATION if found == UNDATED => Ok(Form::Undated),
        APPLICATION if found == UNSUMMED => Ok(Form::Unsummed),
        APPLICATION => Err(NotOpened::Form(Box::new(move |file| {
            OpenError::OtherVersion { file, found, known }
        }))),
        0 if is_new => Ok(Form::New),
        _ => Err(NotOpened::Form(Box::new(OpenError::Foreign))),
    }
}

/// Deletes the keys under leases, and returns the moment after that.
fn moment_without_leases(connection: &Connection) -> Result<Revision, NotOpened> {
    connection.execute_batch("BEGIN IMMEDIATE")?;
    let mut moment = moment(connection)?;
    if connection.execute("DELETE FROM pairs WHERE lease IS NOT NULL", [])? > 0 {
        moment = moment.next();
        write_moment(connection, moment)?;
    }
    connection.execute_batch("COMMIT")?;
    Ok(moment)
}

/// Returns the moment, if its row has the bytes that were written.
fn moment(connection: &Connection) -> Result<Revision, NotOpened> {
    let words = "SELECT revision, checksum FROM moment";
    let (moment, sum) = connection.query_row(words, [], |row| {
        Ok((row.get(0).map(revision)?, row.get::<_, Option<i64>>(1)?))
    })?;
    match sum.is_none_or(|it| it == RowChecksum::of_moment(moment).number()) {
        true => Ok(moment),
        false => Err(damaged(
            "the number of its last revision was changed".to_owned(),
        )),
    }
}

fn write_moment(connection: &Connection, moment: Revision) -> rusqlite::Result<usize> {
    let sum = RowChecksum::of_moment(moment).number();
    let words = "UPDATE moment SET revision = ?1, checksum = ?2";
    let mut update = connection.prepare_cached(words)?;
    update.execute([number(moment), sum])
}

fn open_error(folder: &Path, file: PathBuf, error: &rusqlite::Error) -> OpenError {
    match error.sqlite_error_code() {
        Some(ErrorCode::DatabaseBusy | ErrorCode::DatabaseLocked) => {
            OpenError::InUse(folder.to_owned())
        }
        Some(ErrorCode::NotADatabase) => OpenError::Foreign(file),
        Some(ErrorCode::DatabaseCorrupt) => OpenError::Damaged(file, error.to_string()),
        Some(ErrorCode::DiskFull) => OpenError::Full(folder.to_owned()),
        _ => OpenError::Other(file, error.to_string()),
    }
}

impl From<rusqlite::Error> for TableFailure {
    fn from(error: rusqlite::Error) -> TableFailure {
        match error.sqlite_error_code() {
            Some(ErrorCode::DiskFull | ErrorCode::OutOfMemory) => {
                TableFailure::Full(error.to_string())
            }
            // The row's header was changed, or the row has another kind of value.
            Some(ErrorCode::DatabaseCorrupt) | None => TableFailure::Damaged(error.to_string()),
            _ => TableFailure::Broken(error.to_string()),
        }
    }
}

/// SQLite's numbers are signed, and revisions ascend by one, so none gets that far.
fn number(revision: Revision) -> i64 {
    i64::try_from(revision.0).unwrap_or(i64::MAX)
}

fn revision(number: i64) -> Revision {
    Revision(number.unsigned_abs())
}

/// Returns the revision that created a key, from its row.
fn created(number: Option<i64>) -> Revision {
    number.map_or(FIRST, revision)
}

/// Returns the pair of a row, if the row has the bytes that were written.
fn pair(row: &Row<'_>) -> Result<Pair, TableFailure> {
    let pair = Pair {
        key: row.get(0)?,
        value: row.get(1)?,
        revision: row.get(2).map(revision)?,
        created: row.get(4).map(created)?,
    };
    let (sum, of_created): (Option<i64>, Option<i64>) = (row.get(3)?, row.get(5)?);
    let is_whole = sum.is_none_or(|it| it == RowChecksum::of(&pair).number())
        && of_created.is_none_or(|it| it == RowChecksum::of_creation(&pair).number());
    match is_whole {
        true => Ok(pair),
        false => Err(TableFailure::Damaged(changed(&pair.key))),
    }
}

fn changed(key: &[u8]) -> String {
    format!(
        "the bytes at {} aren't those that were written",
        key.escape_ascii()
    )
}

impl Sqlite {
    /// Moves SQLite's log to the tables, and returns the log's room.
    fn tidy(&mut self) -> Result<(), TableFailure> {
        self.check_log()?;
        let moved = moved_log(&self.connection, &mut self.reserve);
        self.note_move(&moved);
        Ok(moved?)
    }

    /// Syncs SQLite's log, and moves it to the tables as far as they have room.
    fn checkpoint(&mut self) -> Result<(), TableFailure> {
        let passive = "PRAGMA wal_checkpoint(PASSIVE)";
        let moved = self.connection.query_row(passive, [], |_| Ok(()));
        self.note_move(&moved);
        match moved.map_err(TableFailure::from) {
            // The log is synced before the tables need room.
            Ok(()) | Err(TableFailure::Full(_)) => {
                self.is_written = false;
                Ok(())
            }
            failed => failed,
        }
    }

    fn note_move(&mut self, moved: &rusqlite::Result<()>) {
        self.unsynced.iter_mut().for_each(|it| it.note(moved));
    }

    /// Fails if SQLite's log may lack what was committed.
    fn check_log(&self) -> Result<(), TableFailure> {
        self.unsynced.as_ref().map_or(Ok(()), UnsyncedLog::check)
    }

    /// Returns how many bytes in the tables are free.
    fn free_within(&self) -> rusqlite::Result<u64> {
        Ok(count(&self.connection, "freelist_count")? * self.page_size)
    }

    /// Returns whether the reserve stays, or comes back, if the transaction under way is made.
    fn leaves_what_is_kept(&self) -> rusqlite::Result<bool> {
        let (room, pages) = self.under_way;
        let stood = self.lent.map_or(self.reserve.kept(), |it| it.1);
        let is_short = room == Room::Free && stood < Kept::Whole;
        let may_grow = match self.lent {
            None | Some((Means::Log, _)) => !is_short,
            Some((Means::Half, _)) => room == Room::KeptBack,
            Some((Means::All, _)) => false,
        };
        if !may_grow && count(&self.connection, "page_count")? > pages {
            return Ok(false);
        }
        // Free pages in the tables make up for the half that they took.
        Ok(!is_short || self.free_within()? >= self.reserve.half())
    }
}

impl Tables for Sqlite {
    fn moment(&self) -> Revision {
        self.moment
    }

    fn revision_of(&self, key: &[u8]) -> Result<Revision, TableFailure> {
        let mut query = self
            .connection
            .prepare_cached("SELECT revision FROM pairs WHERE key = ?1")?;
        let found = query
            .query_row([key], |row| row.get(0).map(revision))
            .optional()?;
        Ok(found.unwrap_or(Revision::NEVER))
    }

    fn pair_of(&self, key: &[u8]) -> Result<Option<Pair>, TableFailure> {
        let mut query = self
            .connection
            .prepare_cached("SELECT key, value, revision, checksum, created, created_checksum FROM pairs WHERE key = ?1")?;
        let mut found = query.query_and_then([key], pair)?;
        found.next().transpose()
    }

    fn pairs(&self, prefix: &[u8]) -> Result<Vec<Pair>, TableFailure> {
        let sql = "SELECT key, value, revision, checksum, created, created_checksum FROM pairs WHERE key >= ?1 ORDER BY key";
        let mut query = self.connection.prepare_cached(sql)?;
        let mut rows = query.query([prefix])?;
        let mut found = Vec::new();
        while let Some(row) = rows.next()? {
            if !row.get::<_, Vec<u8>>(0)?.starts_with(prefix) {
                break;
            }
            found.push(pair(row)?);
        }
        Ok(found)
    }

    fn range(&self, from: &[u8], end: &[u8], most: usize) -> Result<Vec<Pair>, TableFailure> {
        let words = "
            SELECT key, value, revision, checksum, created, created_checksum FROM pairs WHERE key >= ?1 AND key < ?2 ORDER BY key LIMIT ?3
        ";
        let mut found = self.connection.prepare_cached(words)?;
        let most = i64::try_from(most).unwrap_or(i64::MAX);
        let pairs = found.query_and_then((from, end, most), pair)?;
        pairs.collect()
    }

    fn keys(&self, from: &[u8], end: &[u8]) -> Result<Vec<Vec<u8>>, TableFailure> {
        let words = "SELECT key FROM pairs WHERE key >= ?1 AND key < ?2 ORDER BY key";
        let mut found = self.connection.prepare_cached(words)?;
        let keys = found.query_map((from, end), |row| row.get(0))?;
        Ok(keys.collect::<Result<_, _>>()?)
    }

    fn begin(&mut self, room: Room) -> Result<(), TableFailure> {
        self.check_log()?;
        if self.lent.is_none() {
            self.reserve.take_back();
        }
        self.connection.execute_batch("BEGIN IMMEDIATE")?;
        let is_whole = self.lent.is_none() && self.reserve.kept() == Kept::Whole;
        let pages = match is_whole {
            true => 0,
            false => count(&self.connection, "page_count")?,
        };
        self.under_way = (room, pages);
        Ok(())
    }

    fn put(&mut self, pair: &Pair, lease: Option<LeaseId>) -> Result<Revision, TableFailure> {
        let mut put = self.connection.prepare_cached(PUT)?;
        let row = params![
            pair.key,
            pair.value,
            number(pair.revision),
            lease.map(|it| it.0),
            RowChecksum::of(pair).number(),
            number(pair.created),
            RowChecksum::of_creation(pair).number()
        ];
        Ok(put.query_row(row, |row| row.get(0).map(created))?)
    }

    fn delete(&mut self, key: &[u8]) -> Result<bool, TableFailure> {
        Ok(self
            .connection
            .prepare_cached("DELETE FROM pairs WHERE key = ?1")?
            .execute([key])?
            > 0)
    }

    fn commit(&mut self, moment: Revision) -> Result<(), TableFailure> {
        write_moment(&self.connection, moment)?;
        if !self.leaves_what_is_kept()? {
            return Err(TableFailure::Full(KEPT_BACK.to_owned()));
        }
        self.connection.execute_batch("COMMIT")?;
        (self.moment, self.is_written) = (moment, true);
        if self.unsynced.as_ref().is_some_and(UnsyncedLog::is_long) {
            // The commit is made, whatever this does. If it wasn't a sync that failed, the next tick tries it again.
            let _ = self.checkpoint();
        }
        Ok(())
    }

    fn rollback(&mut self) -> Result<(), TableFailure> {
        // After some failures SQLite has taken it back itself.
        match self.connection.is_autocommit() {
            true => Ok(()),
            false => Ok(self.connection.execute_batch("ROLLBACK")?),
        }
    }

    fn is_usable(&self) -> bool {
        self.check_log().is_ok()
    }

    fn give_up(&mut self) {
        // SQLite doesn't refuse it to a connection that is open.
        let _ = keep_log(&self.connection, true);
    }

    fn make_room(&mut self, means: Means) -> bool {
        // A refused transaction leaves its bytes in the log. If that can't be cut, they would take the lent room
        // forever.
        if means == Means::Log && self.tidy().is_err() {
            return false;
        }
        let stood = self.lent.map_or(self.reserve.kept(), |it| it.1);
        self.lent = Some((means, stood));
        match means {
            Means::Log => {}
            Means::Half => self.reserve.lend(Kept::Half),
            Means::All => self.reserve.lend(Kept::Nothing),
        }
        true
    }

    fn take_room_back(&mut self) {
        self.lent = None;
        // The next refused transaction tries it again, unless it was a sync that failed.
        let _ = self.tidy();
    }

    fn left(&self) -> Option<u64> {
        let lends = match self.reserve.kept() {
            Kept::Whole => self.reserve.half(),
            Kept::Half | Kept::Nothing => 0,
        };
        let within = self.free_within().unwrap_or(0);
        Some(self.reserve.free() + within + lends)
    }

    fn compact(&mut self) -> Result<(), TableFailure> {
        match self.tidy() {
            Ok(()) => {}
            Err(TableFailure::Full(_)) => return Ok(()),
            failed => return failed,
        }
        self.reserve.lend(Kept::Nothing);
        let vacuumed = self.connection.execute_batch("VACUUM");
        let tidied = self.tidy();
        match vacuumed.map_err(TableFailure::from).and(tidied) {
            // Deleted bytes stay free in the file, for the next writes.
            Err(TableFailure::Full(_)) => Ok(()),
            told => told,
        }
    }

    /// Syncs recent commits to the disk: SQLite's log first, then its tables.
    fn tick(&mut self) -> Result<(), TableFailure> {
        self.reserve.take_back();
        match self.unsynced.is_some() && self.is_written {
            true => self.checkpoint(),
            false => Ok(()),
        }
    }
}

#[cfg(test)]
mod tests {
    use super::super::disk::{FileLength, RoomFile, SystemDisk};
    use super::*;
    use std::fs;
    use std::sync::Mutex;

    /// The system's disk, which notes what it is asked.
    #[derive(Default)]
    struct NotedDisk(Mutex<Vec<String>>);

    impl NotedDisk {
        fn note(&self, what: &str, name: &Path) {
            let name = name.file_name().unwrap_or_default().to_string_lossy();
            self.0
                .lock()
                .expect("no panic")
                .push(format!("{what} {name}"));
        }
    }

    impl Disk for NotedDisk {
        fn make_folder(&self, folder: &Path) -> io::Result<()> {
            SystemDisk.make_folder(folder)
        }

        fn sync_folder(&self, folder: &Path) -> io::Result<()> {
            self.note("sync", folder);
            SystemDisk.sync_folder(folder)
        }

        fn write_again(&self, file: &Path) -> io::Result<()> {
            self.note("write", file);
            SystemDisk.write_again(file)
        }

        fn room_file(&self, file: &Path) -> io::Result<Box<dyn RoomFile>> {
            SystemDisk.room_file(file)
        }

        fn length_of(&self, file: &Path) -> FileLength {
            SystemDisk.length_of(file)
        }
    }

    fn folder(name: &str) -> PathBuf {
        std::env::temp_dir().join(format!("durkenzo-{name}-{}", std::process::id()))
    }

    /// A log that was deleted, or that the disk doesn't have, undoes nothing that was read.
    #[test]
    fn the_disk_has_the_log_and_the_folder_before_anything_is_read() {
        let (folder, disk) = (folder("noted"), NotedDisk::default());
        drop(Sqlite::open(&disk, &folder, Sync::Always).expect("it is opened"));
        let asked = disk.0.into_inner().expect("no panic");
        let name = folder.file_name().expect("a name").to_string_lossy();
        let wanted = [
            "write durkenzo.sqlite-wal".to_owned(),
            format!("sync {name}"),
        ];
        assert!(asked.ends_with(&wanted), "{asked:?}");
        fs::remove_dir_all(&folder).expect("removed");
    }

    #[test]
    fn the_log_of_tables_that_cant_be_used_stays_for_who_opens_them_next() {
        let folder = folder("given-up");
        let has_log = || {
            let log = fs::metadata(folder.join("durkenzo.sqlite-wal"));
            log.is_ok_and(|it| it.len() > 0)
        };
        let open = || Sqlite::open(&SystemDisk, &folder, Sync::Always).expect("it is opened");
        let mut tables = open();
        let pair = Pair {
            key: b"key".to_vec(),
            value: b"value".to_vec(),
            revision: Revision(1),
            created: Revision(1),
        };
        let made = tables
            .begin(Room::Free)
            .and_then(|()| tables.put(&pair, None));
        assert!(made.is_ok() && tables.commit(Revision(1)).is_ok());
        tables.give_up();
        drop(tables);
        assert!(has_log());
        let tables = open();
        assert!(tables.pair_of(b"key").is_ok_and(|it| it == Some(pair)));
        drop(tables);
        assert!(!has_log());
        fs::remove_dir_all(&folder).expect("removed");
    }

    /// A check that can't read a page says so in these words. The page isn't changed then.
    #[test]
    fn a_page_that_cant_be_read_isnt_told_as_damaged() {
        let head = "*** in database main ***\n";
        for unread in [
            "Page 4: unable to get the page. error code=266",
            "On tree page 2 cell 0: failed to get page 7",
        ] {
            assert!(is_unread(&format!("{head}{unread}")), "{unread}");
        }
        assert!(!is_unread(&format!("{head}Page 3: never used")));
        assert!(!is_unread(
            "non-unique entry in index sqlite_autoindex_pairs_1"
        ));
    }

    /// SQLite keeps another mode, as for tables in memory, and says so only with the mode.
    #[test]
    fn tables_without_a_log_arent_opened() {
        let connection = Connection::open_in_memory().expect("memory");
        assert!(matches!(begin_log(&connection), Err(NotOpened::Form(_))));
    }
}
