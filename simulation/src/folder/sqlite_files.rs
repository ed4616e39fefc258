//! The calls by which SQLite uses simulated disks, as `sqlite3_vfs` has them. Only this file of the simulator has
//! unsafe code. It is sound because SQLite keeps the rules. SQLite passes names that end with a zero, and buffers as
//! long as it says. It uses a file from its opening until it closes it, by one thread at a time.
#![allow(unsafe_code)]

use super::disk_failure::DiskFailure;
use super::mounted_disk::disk_of;
use super::open_file::OpenFile;
use super::simulated_disk::locked;
use rusqlite::ffi;
use std::ffi::{c_char, c_int, c_void, CStr, OsStr};
use std::mem::size_of;
use std::os::unix::ffi::OsStrExt;
use std::path::{Path, PathBuf};
use std::ptr::{null, null_mut};
use std::slice;
use std::sync::Once;

const NAME: &CStr = c"durkenzo-simulated";
const LONGEST_NAME: c_int = 512;
/// SQLite's numbers for a deletion of a file that isn't there, and for a disk whose writes change no bytes beside them.
const DELETE_NOENT: c_int = ffi::SQLITE_IOERR | (23 << 8);
const POWERSAFE_OVERWRITE: c_int = 0x1000;
/// The length of a sector on Linux, as SQLite takes it for granted.
const SECTOR: c_int = 4_096;
/// A moment, in days.
const TODAY: f64 = 2_460_000.5;

/// A file as SQLite has it, in SQLite's own memory.
#[repr(C)]
struct RawFile {
    base: ffi::sqlite3_file,
    /// [`open`] makes it, and [`close`] drops it.
    file: *mut OpenFile,
}

static METHODS: ffi::sqlite3_file_sqlite3_io_methods = ffi::sqlite3_file_sqlite3_io_methods {
    iVersion: 1,
    xClose: Some(close),
    xRead: Some(read),
    xWrite: Some(write),
    xTruncate: Some(truncate),
    xSync: Some(sync),
    xFileSize: Some(file_size),
    xLock: Some(lock),
    xUnlock: Some(lock),
    xCheckReservedLock: Some(check_lock),
    xFileControl: Some(control),
    xSectorSize: Some(sector_size),
    xDeviceCharacteristics: Some(characteristics),
};

/// Makes simulated disks known to SQLite, and returns their name there.
pub fn registered() -> &'static str {
    static REGISTERED: Once = Once::new();
    REGISTERED.call_once(|| {
        // SAFETY: zeros are a table of no calls.
        let mut calls: ffi::sqlite3_vfs = unsafe { std::mem::zeroed() };
        calls.iVersion = 1;
        calls.szOsFile = size_of::<RawFile>() as c_int;
        calls.mxPathname = LONGEST_NAME;
        calls.zName = NAME.as_ptr();
        calls.xOpen = Some(open);
        calls.xDelete = Some(delete);
        calls.xAccess = Some(access);
        calls.xFullPathname = Some(full_name);
        calls.xRandomness = Some(randomness);
        calls.xSleep = Some(sleep);
        calls.xCurrentTime = Some(current_time);
        // SAFETY: the table is never freed, and nobody else changes it.
        let told = unsafe { ffi::sqlite3_vfs_register(Box::leak(Box::new(calls)), 0) };
        assert_eq!(told, ffi::SQLITE_OK, "SQLite takes the calls");
    });
    NAME.to_str().expect("it is ASCII")
}

/// Returns SQLite's number for the result of a call. If the call failed, and not for want of room, the number is
/// `failed`.
fn number<T>(told: &Result<T, DiskFailure>, failed: c_int) -> c_int {
    match told {
        Ok(_) => ffi::SQLITE_OK,
        Err(DiskFailure::Full) => ffi::SQLITE_FULL,
        Err(DiskFailure::Missing | DiskFailure::Broken) => failed,
    }
}

/// # Safety
///
/// The name must end with a zero.
unsafe fn path<'a>(name: *const c_char) -> &'a Path {
    // SAFETY: as above.
    Path::new(OsStr::from_bytes(
        unsafe { CStr::from_ptr(name) }.to_bytes(),
    ))
}

/// # Safety
///
/// [`open`] must have opened the file, and [`close`] must not have closed it.
unsafe fn opened<'a>(file: *mut ffi::sqlite3_file) -> &'a mut OpenFile {
    // SAFETY: as above; nobody else uses it meanwhile.
    unsafe { &mut *(*file.cast::<RawFile>()).file }
}

fn found(name: &Path, flags: c_int) -> Result<OpenFile, DiskFailure> {
    let disk = disk_of(name).ok_or(DiskFailure::Missing)?;
    let number = locked(&disk).open(name, flags & ffi::SQLITE_OPEN_CREATE != 0)?;
    let is_log = flags & ffi::SQLITE_OPEN_MAIN_DB == 0;
    let unsynced_folder = name.parent().filter(|_| is_log).map(PathBuf::from);
    Ok(OpenFile::OfDisk {
        disk,
        number,
        unsynced_folder,
    })
}

unsafe extern "C" fn open(
    _: *mut ffi::sqlite3_vfs,
    name: *const c_char,
    file: *mut ffi::sqlite3_file,
    flags: c_int,
    told_flags: *mut c_int,
) -> c_int {
    let made = match name.is_null() {
        true => Ok(OpenFile::Temporary(Vec::new())),
        // SAFETY: SQLite's names end with a zero.
        false => found(unsafe { path(name) }, flags),
    };
    let told = number(&made, ffi::SQLITE_CANTOPEN);
    let raw = match made {
        Ok(made) => (&raw const METHODS, Box::into_raw(Box::new(made))),
        // If a file has no calls, SQLite doesn't close it.
        Err(_) => (null(), null_mut()),
    };
    // SAFETY: SQLite has given memory for a `RawFile`, and for the flags if it wants them.
    unsafe {
        file.cast::<RawFile>().write(RawFile {
            base: ffi::sqlite3_file { pMethods: raw.0 },
            file: raw.1,
        });
        if !told_flags.is_null() {
            told_flags.write(flags);
        }
    }
    told
}

unsafe extern "C" fn close(file: *mut ffi::sqlite3_file) -> c_int {
    // SAFETY: the file is open, and SQLite doesn't use it after this.
    unsafe { drop(Box::from_raw((*file.cast::<RawFile>()).file)) };
    ffi::SQLITE_OK
}

unsafe extern "C" fn read(
    file: *mut ffi::sqlite3_file,
    into: *mut c_void,
    count: c_int,
    at: i64,
) -> c_int {
    // SAFETY: the file is open, and there is memory for so many bytes.
    let (file, into) = unsafe {
        (
            opened(file),
            slice::from_raw_parts_mut(into.cast(), count as usize),
        )
    };
    match file.read(at as usize, into) {
        Ok(had) if had == into.len() => ffi::SQLITE_OK,
        Ok(had) => {
            into[had..].fill(0);
            ffi::SQLITE_IOERR_SHORT_READ
        }
        Err(_) => ffi::SQLITE_IOERR_READ,
    }
}

unsafe extern "C" fn write(
    file: *mut ffi::sqlite3_file,
    bytes: *const c_void,
    count: c_int,
    at: i64,
) -> c_int {
    // SAFETY: the file is open, and there are so many bytes.
    let (file, bytes) = unsafe {
        (
            opened(file),
            slice::from_raw_parts(bytes.cast(), count as usize),
        )
    };
    number(&file.write(at as usize, bytes), ffi::SQLITE_IOERR_WRITE)
}

unsafe extern "C" fn truncate(file: *mut ffi::sqlite3_file, length: i64) -> c_int {
    // SAFETY: the file is open.
    let told = unsafe { opened(file) }.set_length(length as usize);
    number(&told, ffi::SQLITE_IOERR_TRUNCATE)
}

unsafe extern "C" fn sync(file: *mut ffi::sqlite3_file, _: c_int) -> c_int {
    // SAFETY: the file is open.
    number(&unsafe { opened(file) }.sync(), ffi::SQLITE_IOERR_FSYNC)
}

unsafe extern "C" fn file_size(file: *mut ffi::sqlite3_file, told: *mut i64) -> c_int {
    // SAFETY: the file is open.
    let length = unsafe { opened(file) }.length();
    if let Ok(length) = length {
        // SAFETY: there is memory for the answer.
        unsafe { told.write(length as i64) };
    }
    number(&length, ffi::SQLITE_IOERR_FSTAT)
}

/// Locks nothing, because only one process has the folder as long as it runs.
unsafe extern "C" fn lock(_: *mut ffi::sqlite3_file, _: c_int) -> c_int {
    ffi::SQLITE_OK
}

unsafe extern "C" fn check_lock(_: *mut ffi::sqlite3_file, told: *mut c_int) -> c_int {
    // SAFETY: there is memory for the answer.
    unsafe { told.write(0) };
    ffi::SQLITE_OK
}

unsafe extern "C" fn control(_: *mut ffi::sqlite3_file, _: c_int, _: *mut c_void) -> c_int {
    ffi::SQLITE_NOTFOUND
}

unsafe extern "C" fn sector_size(_: *mut ffi::sqlite3_file) -> c_int {
    SECTOR
}

unsafe extern "C" fn characteristics(_: *mut ffi::sqlite3_file) -> c_int {
    POWERSAFE_OVERWRITE
}

unsafe extern "C" fn delete(_: *mut ffi::sqlite3_vfs, name: *const c_char, syncs: c_int) -> c_int {
    // SAFETY: SQLite's names end with a zero.
    let name = unsafe { path(name) };
    let Some((disk, folder)) = disk_of(name).zip(name.parent()) else {
        return DELETE_NOENT;
    };
    let mut disk = locked(&disk);
    match disk.delete(name) {
        Err(DiskFailure::Missing) => DELETE_NOENT,
        Ok(()) if syncs != 0 => number(&disk.sync_folder(folder), ffi::SQLITE_IOERR_DIR_FSYNC),
        told => number(&told, ffi::SQLITE_IOERR_DELETE),
    }
}

unsafe extern "C" fn access(
    _: *mut ffi::sqlite3_vfs,
    name: *const c_char,
    _: c_int,
    told: *mut c_int,
) -> c_int {
    // SAFETY: SQLite's names end with a zero.
    let name = unsafe { path(name) };
    let has = disk_of(name).map_or(Ok(false), |it| locked(&it).has(name));
    // SAFETY: there is memory for the answer.
    unsafe { told.write(c_int::from(has.unwrap_or(false))) };
    number(&has, ffi::SQLITE_IOERR_ACCESS)
}

unsafe extern "C" fn full_name(
    _: *mut ffi::sqlite3_vfs,
    name: *const c_char,
    room: c_int,
    told: *mut c_char,
) -> c_int {
    // SAFETY: SQLite's names end with a zero.
    let bytes = unsafe { CStr::from_ptr(name) }.to_bytes_with_nul();
    if bytes.len() > room as usize {
        return ffi::SQLITE_CANTOPEN;
    }
    // SAFETY: there is memory for so many bytes, which are no part of the name.
    unsafe { told.copy_from_nonoverlapping(bytes.as_ptr().cast(), bytes.len()) };
    ffi::SQLITE_OK
}

unsafe extern "C" fn randomness(
    _: *mut ffi::sqlite3_vfs,
    count: c_int,
    told: *mut c_char,
) -> c_int {
    // SAFETY: there is memory for so many bytes.
    unsafe { told.write_bytes(0, count as usize) };
    count
}

/// Doesn't wait, because only the schedule lets time pass.
unsafe extern "C" fn sleep(_: *mut ffi::sqlite3_vfs, microseconds: c_int) -> c_int {
    microseconds
}

unsafe extern "C" fn current_time(_: *mut ffi::sqlite3_vfs, told: *mut f64) -> c_int {
    // SAFETY: there is memory for the answer.
    unsafe { told.write(TODAY) };
    ffi::SQLITE_OK
}
