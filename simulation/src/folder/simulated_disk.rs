use super::disk_failure::DiskFailure;
use super::disk_file::DiskFile;
use super::disk_rates::DiskRates;
use crate::chance::Chance;
use crate::fault::Fault;
use crate::faults::Faults;
use crate::timeline::Column;
use std::collections::BTreeMap;
use std::path::{Path, PathBuf};
use std::sync::{Arc, Mutex, MutexGuard};

/// How many bytes a block has. The disk gives room by blocks.
const BLOCK: u64 = 4_096;

/// A disk, which all of its users share.
pub type SharedDisk = Arc<Mutex<SimulatedDisk>>;

/// The folder or the file that has a name.
#[derive(Clone, Copy, Debug, PartialEq, Eq)]
enum Entry {
    Folder,
    /// A file, by its number.
    File(u64),
}

/// A disk in memory. If power is lost, it loses by chance the changes that weren't synced.
pub struct SimulatedDisk {
    faults: Faults,
    rates: DiskRates,
    files: BTreeMap<u64, DiskFile>,
    /// The names that processes see, and those that are left if power is lost.
    seen: BTreeMap<PathBuf, Entry>,
    kept: BTreeMap<PathBuf, Entry>,
    /// How many files there were.
    last: u64,
    size: u64,
    /// How much of the disk others have, and the room of the file that keeps room back: as it is, and as the disk has
    /// it.
    others: u64,
    room: u64,
    kept_room: u64,
    /// The number of calls after which the process that uses the disk is killed.
    kill: Option<u64>,
    is_killed: bool,
}

pub fn locked(disk: &SharedDisk) -> MutexGuard<'_, SimulatedDisk> {
    disk.lock().expect("no schedule goes on after a panic")
}

impl SimulatedDisk {
    /// Returns an empty disk of this size, which has this folder.
    pub fn new(faults: Faults, rates: DiskRates, size: u64, first: &Path) -> SimulatedDisk {
        let entries = BTreeMap::from([(first.to_owned(), Entry::Folder)]);
        SimulatedDisk {
            faults,
            rates,
            files: BTreeMap::new(),
            seen: entries.clone(),
            kept: entries,
            last: 0,
            size,
            others: 0,
            room: 0,
            kept_room: 0,
            kill: None,
            is_killed: false,
        }
    }

    /// Kills the process that uses the disk after so many calls. If the process calls again, nothing is done.
    pub fn kill_after(&mut self, calls: u64) {
        self.kill = Some(calls);
    }

    pub fn is_killed(&self) -> bool {
        self.is_killed
    }

    /// Lets another process use the disk.
    pub fn revive(&mut self) {
        (self.kill, self.is_killed) = (None, false);
    }

    /// Deletes everything except the first folder.
    pub fn clear(&mut self) {
        let is_first = |it: &Path| it.parent().is_some_and(|it| it.parent().is_none());
        self.seen.retain(|it, _| is_first(it));
        self.kept.clone_from(&self.seen);
        (self.room, self.kept_room) = (0, 0);
        self.forget_files();
    }

    /// Makes the disk fail no more. Others have no room of it any more.
    pub fn calm(&mut self) {
        self.rates = DiskRates::default();
        self.others = 0;
    }

    /// Lets others take all but so many free bytes.
    pub fn leave(&mut self, bytes: u64) {
        self.others = 0;
        self.others = self.free().saturating_sub(bytes);
    }

    /// Loses power. Returns how many changes of files are kept that weren't synced, and how many there were.
    pub fn lose_power(&mut self, chance: &mut Chance) -> (usize, usize) {
        self.is_killed = true;
        let names: Vec<PathBuf> = self.seen.keys().chain(self.kept.keys()).cloned().collect();
        for name in names {
            let of_it = (self.seen.get(&name).copied(), self.kept.get(&name).copied());
            if of_it.0 == of_it.1 || !chance.is_true(1, 2) {
                continue;
            }
            match of_it.0 {
                Some(entry) => self.kept.insert(name, entry),
                None => self.kept.remove(&name),
            };
        }
        let folders = self.kept.clone();
        let lies = |it: &Path| {
            it.parent()
                .is_none_or(|it| it.parent().is_none() || folders.contains_key(it))
        };
        self.kept.retain(|it, _| lies(it));
        self.seen = self.kept.clone();
        if chance.is_true(1, 2) {
            self.kept_room = self.room;
        }
        self.room = self.kept_room;
        let (mut kept, mut count) = (0, 0);
        for file in self.files.values_mut() {
            let of_file = file.lose_unsynced(chance);
            (kept, count) = (kept + of_file.0, count + of_file.1);
        }
        self.forget_files();
        (kept, count)
    }

    /// Drops the files that have no name.
    fn forget_files(&mut self) {
        let named: Vec<Entry> = self
            .seen
            .values()
            .chain(self.kept.values())
            .copied()
            .collect();
        self.files.retain(|it, _| named.contains(&Entry::File(*it)));
    }

    /// Returns how many bytes are free.
    pub fn free(&self) -> u64 {
        let of_name = |it: &Entry| match it {
            Entry::Folder => 0,
            Entry::File(number) => self.room_of(*number),
        };
        let used: u64 = self.seen.values().map(of_name).sum();
        self.size.saturating_sub(used + self.room + self.others)
    }

    fn room_of(&self, number: u64) -> u64 {
        let length = self.files.get(&number).map_or(0, DiskFile::length);
        blocks(length as u64)
    }

    pub fn size(&self) -> u64 {
        self.size
    }

    /// Counts a call, which fails by chance once in so many. The error has the chance by which it fails, unless the
    /// process was killed.
    fn called(&mut self, fault: Fault, rate: u64) -> Result<(), (DiskFailure, Option<Chance>)> {
        match &mut self.kill {
            Some(0) => self.is_killed = true,
            Some(calls) => *calls -= 1,
            None => {}
        }
        if self.is_killed {
            return Err((DiskFailure::Broken, None));
        }
        let struck = match rate {
            0 => None,
            rate => self.faults.strike(fault, 1, rate, Column::Store),
        };
        match struck {
            Some(chance) => Err((DiskFailure::Broken, Some(chance))),
            None => Ok(()),
        }
    }

    fn called_plainly(&mut self) -> Result<(), DiskFailure> {
        let rate = self.rates.others;
        self.called(Fault::DiskCallFails, rate).map_err(|it| it.0)
    }

    /// Makes a folder, if it isn't there. The folder above it must be there.
    pub fn make_folder(&mut self, folder: &Path) -> Result<(), DiskFailure> {
        self.called_plainly()?;
        self.see_folder_of(folder)?;
        self.seen.entry(folder.to_owned()).or_insert(Entry::Folder);
        Ok(())
    }

    fn see_folder_of(&self, name: &Path) -> Result<(), DiskFailure> {
        let folder = name.parent().and_then(|it| self.seen.get(it));
        match folder {
            Some(Entry::Folder) => Ok(()),
            Some(Entry::File(_)) | None => Err(DiskFailure::Missing),
        }
    }

    /// Syncs a folder, so that the names in it are kept if power is lost.
    pub fn sync_folder(&mut self, folder: &Path) -> Result<(), DiskFailure> {
        self.called_plainly()?;
        let lies_in = |it: &&PathBuf| it.parent() == Some(folder);
        let names: Vec<PathBuf> = self
            .seen
            .keys()
            .chain(self.kept.keys())
            .filter(lies_in)
            .cloned()
            .collect();
        for name in names {
            match self.seen.get(&name) {
                Some(entry) => self.kept.insert(name, *entry),
                None => self.kept.remove(&name),
            };
        }
        Ok(())
    }

    /// Opens a file, or makes it if it isn't there, and returns its number.
    pub fn open(&mut self, name: &Path, makes: bool) -> Result<u64, DiskFailure> {
        self.called_plainly()?;
        self.see_folder_of(name)?;
        match self.seen.get(name) {
            Some(Entry::File(number)) => return Ok(*number),
            Some(Entry::Folder) => return Err(DiskFailure::Broken),
            None if !makes => return Err(DiskFailure::Missing),
            None => {}
        }
        self.last += 1;
        self.files.insert(self.last, DiskFile::default());
        self.seen.insert(name.to_owned(), Entry::File(self.last));
        Ok(self.last)
    }

    pub fn delete(&mut self, name: &Path) -> Result<(), DiskFailure> {
        self.called_plainly()?;
        match self.seen.remove(name) {
            Some(_) => Ok(()),
            None => Err(DiskFailure::Missing),
        }
    }

    /// Returns whether there is a folder of this name, or a file that isn't empty.
    pub fn has(&mut self, name: &Path) -> Result<bool, DiskFailure> {
        self.called_plainly()?;
        Ok(match self.seen.get(name) {
            Some(Entry::File(number)) => self.files.get(number).is_some_and(|it| it.length() > 0),
            Some(Entry::Folder) => true,
            None => false,
        })
    }

    fn file(&mut self, number: u64) -> Result<&mut DiskFile, DiskFailure> {
        self.files.get_mut(&number).ok_or(DiskFailure::Broken)
    }

    pub fn length(&mut self, number: u64) -> Result<usize, DiskFailure> {
        Ok(self.file(number)?.length())
    }

    /// Returns the length of the file with this name, and 0 if there is no such file.
    pub fn length_at(&mut self, name: &Path) -> Result<u64, DiskFailure> {
        self.called_plainly()?;
        match self.seen.get(name).copied() {
            Some(Entry::File(number)) => Ok(self.length(number)? as u64),
            Some(Entry::Folder) | None => Ok(0),
        }
    }

    /// Reads as many bytes from this place on as there are, and returns how many.
    pub fn read(&mut self, number: u64, at: usize, into: &mut [u8]) -> Result<usize, DiskFailure> {
        let rate = self.rates.reads;
        self.called(Fault::DiskReadFails, rate).map_err(|it| it.0)?;
        Ok(self.file(number)?.read(at, into))
    }

    /// Writes these bytes. If that fails, some of them may be written.
    pub fn write(&mut self, number: u64, at: usize, bytes: &[u8]) -> Result<(), DiskFailure> {
        let rate = self.rates.writes;
        match self.called(Fault::DiskWriteFails, rate) {
            Ok(()) => {}
            Err((failure, chance)) => {
                let count = chance.map_or(0, |mut it| it.below(bytes.len() as u64 + 1));
                // A write that breaks off must not take more room than there is.
                let count = (count as usize).min(self.fitting(number, at, bytes.len())?);
                self.file(number)?.write(at, &bytes[..count]);
                return Err(failure);
            }
        }
        let count = self.fitting(number, at, bytes.len())?;
        self.file(number)?.write(at, &bytes[..count]);
        match count == bytes.len() {
            true => Ok(()),
            false => Err(DiskFailure::Full),
        }
    }

    /// Returns how many of so many bytes have room from this place on.
    fn fitting(&mut self, number: u64, at: usize, count: usize) -> Result<usize, DiskFailure> {
        let length = self.file(number)?.length() as u64;
        let most = blocks(length) + self.free() / BLOCK * BLOCK;
        Ok(count.min((most as usize).saturating_sub(at)))
    }

    pub fn set_length(&mut self, number: u64, length: usize) -> Result<(), DiskFailure> {
        let rate = self.rates.writes;
        self.called(Fault::DiskWriteFails, rate)
            .map_err(|it| it.0)?;
        let more = blocks(length as u64).saturating_sub(self.room_of(number));
        if more > self.free() {
            return Err(DiskFailure::Full);
        }
        self.file(number)?.set_length(length);
        Ok(())
    }

    /// Writes a file again with the same bytes, and syncs it. If there is no such file, nothing is done.
    pub fn write_again(&mut self, name: &Path) -> Result<(), DiskFailure> {
        self.called_plainly()?;
        let Some(Entry::File(number)) = self.seen.get(name).copied() else {
            return Ok(());
        };
        let mut bytes = vec![0; self.file(number)?.length()];
        self.read(number, 0, &mut bytes)?;
        self.write(number, 0, &bytes)?;
        self.sync(number)
    }

    /// Syncs a file, so that all of its changes are kept. If that fails, the disk may give some of them up for good.
    pub fn sync(&mut self, number: u64) -> Result<(), DiskFailure> {
        let (rate, gives_up) = (self.rates.syncs, self.rates.gives_up);
        match self.called(Fault::DiskSyncFails, rate) {
            Ok(()) => self.file(number)?.sync(),
            Err((failure, chance)) => {
                if let Some(mut chance) = chance.filter(|_| gives_up) {
                    self.file(number)?.give_up_unsynced(&mut chance);
                }
                return Err(failure);
            }
        }
        Ok(())
    }

    /// Returns the room of the file that keeps room back.
    pub fn room(&mut self) -> Result<u64, DiskFailure> {
        self.called_plainly()?;
        Ok(self.room)
    }

    pub fn set_room(&mut self, length: u64) -> Result<(), DiskFailure> {
        self.called_plainly()?;
        if length > self.room {
            // The file is longer then, but has no more room.
            return Ok(());
        }
        self.room = blocks(length);
        Ok(())
    }

    pub fn allocate_room(&mut self, length: u64) -> Result<(), DiskFailure> {
        self.called_plainly()?;
        let more = blocks(length).saturating_sub(self.room);
        let free = self.free() / BLOCK * BLOCK;
        self.room += more.min(free);
        match more <= free {
            true => Ok(()),
            false => Err(DiskFailure::Full),
        }
    }
}

fn blocks(bytes: u64) -> u64 {
    bytes.div_ceil(BLOCK) * BLOCK
}
