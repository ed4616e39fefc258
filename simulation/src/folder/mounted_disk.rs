use super::simulated_disk::{locked, SharedDisk, SimulatedDisk};
use super::sqlite_files;
use durkenzo_store::{Disk, FileLength, RoomFile};
use std::collections::BTreeMap;
use std::io;
use std::path::{Path, PathBuf};
use std::sync::atomic::{AtomicU64, Ordering};
use std::sync::{Arc, Mutex};

/// The disks that SQLite can find, by the first folders of their files.
static MOUNTED: Mutex<BTreeMap<PathBuf, SharedDisk>> = Mutex::new(BTreeMap::new());
/// How many disks there were.
static LAST: AtomicU64 = AtomicU64::new(0);

/// A simulated disk that SQLite finds until this is dropped.
pub struct MountedDisk {
    pub disk: SharedDisk,
    first: PathBuf,
}

impl MountedDisk {
    /// Mounts the disk that this makes, with a first folder of its own.
    pub fn new(made: impl FnOnce(&Path) -> SimulatedDisk) -> MountedDisk {
        let number = LAST.fetch_add(1, Ordering::Relaxed);
        let first = PathBuf::from(format!("/disk-{number}"));
        let disk = Arc::new(Mutex::new(made(&first)));
        let mut mounted = MOUNTED.lock().expect("no schedule goes on after a panic");
        mounted.insert(first.clone(), disk.clone());
        MountedDisk { disk, first }
    }

    /// Returns a text without the name of the first folder, because a schedule doesn't choose that name.
    pub fn without_first(&self, text: &str) -> String {
        text.replace(&*self.first.to_string_lossy(), "")
    }

    /// Returns the folder of the store.
    pub fn folder(&self) -> PathBuf {
        self.first.join("data")
    }
}

impl Drop for MountedDisk {
    fn drop(&mut self) {
        if let Ok(mut mounted) = MOUNTED.lock() {
            mounted.remove(&self.first);
        }
    }
}

/// Returns the disk that has the file of this name.
pub fn disk_of(name: &Path) -> Option<SharedDisk> {
    let mounted = MOUNTED.lock().ok()?;
    let mut above = name.ancestors();
    above.find_map(|it| mounted.get(it)).cloned()
}

impl Disk for MountedDisk {
    fn make_folder(&self, folder: &Path) -> io::Result<()> {
        Ok(locked(&self.disk).make_folder(folder)?)
    }

    fn sync_folder(&self, folder: &Path) -> io::Result<()> {
        Ok(locked(&self.disk).sync_folder(folder)?)
    }

    fn write_again(&self, file: &Path) -> io::Result<()> {
        Ok(locked(&self.disk).write_again(file)?)
    }

    fn room_file(&self, _file: &Path) -> io::Result<Box<dyn RoomFile>> {
        locked(&self.disk).room()?;
        Ok(Box::new(SimulatedRoomFile(self.disk.clone())))
    }

    fn length_of(&self, file: &Path) -> FileLength {
        let (disk, file) = (self.disk.clone(), file.to_owned());
        Box::new(move || Ok(locked(&disk).length_at(&file)?))
    }

    fn sqlite_name(&self) -> Option<&str> {
        Some(sqlite_files::registered())
    }
}

/// The file that keeps room back. It has room, but no content.
struct SimulatedRoomFile(SharedDisk);

impl RoomFile for SimulatedRoomFile {
    fn room(&self) -> io::Result<u64> {
        Ok(locked(&self.0).room()?)
    }

    fn set_length(&mut self, length: u64) -> io::Result<()> {
        Ok(locked(&self.0).set_room(length)?)
    }

    fn allocate(&mut self, length: u64) -> io::Result<()> {
        Ok(locked(&self.0).allocate_room(length)?)
    }

    fn free(&self) -> io::Result<u64> {
        Ok(locked(&self.0).free())
    }

    fn disk_size(&self) -> io::Result<u64> {
        Ok(locked(&self.0).size())
    }
}
