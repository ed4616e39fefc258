use super::system_room_file::SystemRoomFile;
use std::fs::{self, File};
use std::io;
use std::os::unix::fs::FileExt;
use std::path::Path;

/// How many bytes of a file are written again at once.
const PIECE: usize = 1 << 16;

/// Tells the length of a file at any time: 0 if there is no such file.
pub type FileLength = Box<dyn Fn() -> io::Result<u64> + Send>;

/// The part of the system that a store in a folder uses beside SQLite: the system's own files, or simulated ones.
pub trait Disk: Send + Sync {
    /// Makes a folder in an existing one, if it doesn't exist.
    ///
    /// # Errors
    ///
    /// If the system refuses it.
    fn make_folder(&self, folder: &Path) -> io::Result<()>;

    /// Syncs the list of the files and folders in this folder to the disk.
    ///
    /// # Errors
    ///
    /// If the system refuses it.
    fn sync_folder(&self, folder: &Path) -> io::Result<()>;

    /// Writes this file again as it is, if it exists, and has the disk keep it.
    ///
    /// # Errors
    ///
    /// If the system refuses it. The file is as it was then.
    fn write_again(&self, file: &Path) -> io::Result<()>;

    /// Opens the file that reserves room, or makes it, empty.
    ///
    /// # Errors
    ///
    /// If the system refuses it.
    fn room_file(&self, file: &Path) -> io::Result<Box<dyn RoomFile>>;

    /// Returns the teller of a file's length.
    fn length_of(&self, file: &Path) -> FileLength;

    /// Returns the name by which SQLite knows these files; nothing if they are the system's.
    fn sqlite_name(&self) -> Option<&str> {
        None
    }
}

/// A file that takes room on the disk, and has no content.
pub trait RoomFile: Send {
    /// Returns how many bytes of the disk it takes.
    ///
    /// # Errors
    ///
    /// If the system doesn't tell it.
    fn room(&self) -> io::Result<u64>;

    /// Cuts it to this length.
    ///
    /// # Errors
    ///
    /// If the system refuses it.
    fn set_length(&mut self, length: u64) -> io::Result<()>;

    /// Gives it so many bytes on the disk.
    ///
    /// # Errors
    ///
    /// If the disk has less. Then it may have got some of them.
    fn allocate(&mut self, length: u64) -> io::Result<()>;

    /// Returns how many bytes of the disk are free.
    ///
    /// # Errors
    ///
    /// If the system doesn't tell it.
    fn free(&self) -> io::Result<u64>;

    /// Returns how many bytes the disk has.
    ///
    /// # Errors
    ///
    /// If the system doesn't tell it.
    fn disk_size(&self) -> io::Result<u64>;
}

/// The system's own files.
pub(super) struct SystemDisk;

impl Disk for SystemDisk {
    fn make_folder(&self, folder: &Path) -> io::Result<()> {
        match fs::create_dir(folder) {
            Err(_) if folder.is_dir() => Ok(()),
            told => told,
        }
    }

    fn sync_folder(&self, folder: &Path) -> io::Result<()> {
        use io::ErrorKind::{InvalidInput, PermissionDenied, Unsupported};
        match File::open(folder).and_then(|it| it.sync_all()) {
            // A process that may not read the folder goes on, as SQLite does. So does one on a file system that can't
            // sync folders.
            Err(error) if matches!(error.kind(), PermissionDenied | InvalidInput | Unsupported) => {
                Ok(())
            }
            told => told,
        }
    }

    fn write_again(&self, file: &Path) -> io::Result<()> {
        let opened = File::options().read(true).write(true).open(file);
        let file = match opened {
            Err(error) if error.kind() == io::ErrorKind::NotFound => return Ok(()),
            told => told?,
        };
        let (mut piece, mut at) = (vec![0; PIECE], 0);
        loop {
            let count = file.read_at(&mut piece, at)?;
            if count == 0 {
                return file.sync_all();
            }
            file.write_all_at(&piece[..count], at)?;
            at += count as u64;
        }
    }

    fn room_file(&self, file: &Path) -> io::Result<Box<dyn RoomFile>> {
        Ok(Box::new(SystemRoomFile::open(file)?))
    }

    fn length_of(&self, file: &Path) -> FileLength {
        let file = file.to_owned();
        Box::new(move || match fs::metadata(&file) {
            Err(error) if error.kind() == io::ErrorKind::NotFound => Ok(0),
            told => Ok(told?.len()),
        })
    }
}

/// Makes a folder and its parents, and syncs that to the disk.
pub(super) fn make_folders(disk: &dyn Disk, folder: &Path) -> io::Result<()> {
    let above = folder.parent().filter(|it| !it.as_os_str().is_empty());
    match (disk.make_folder(folder), above) {
        (Err(error), Some(above)) if error.kind() == io::ErrorKind::NotFound => {
            make_folders(disk, above)?;
            disk.make_folder(folder)?;
        }
        (made, _) => made?,
    }
    // A folder that exists may exist only until the machine stops, because its maker got no further.
    disk.sync_folder(above.unwrap_or(Path::new(".")))
}

#[cfg(test)]
mod tests {
    use super::*;
    use std::path::PathBuf;
    use std::sync::Mutex;

    /// A disk that has the first folder, and notes its calls.
    #[derive(Default)]
    struct NotingDisk {
        asked: Mutex<Vec<String>>,
        made: Mutex<Vec<PathBuf>>,
    }

    impl NotingDisk {
        fn note(&self, what: &str, folder: &Path) {
            let noted = format!("{what} {}", folder.display());
            self.asked.lock().expect("no panic").push(noted);
        }
    }

    impl Disk for NotingDisk {
        fn make_folder(&self, folder: &Path) -> io::Result<()> {
            let mut made = self.made.lock().expect("no panic");
            let above = folder.parent().expect("it isn't the first");
            if above.parent().is_some() && !made.contains(&above.to_owned()) {
                return Err(io::ErrorKind::NotFound.into());
            }
            self.note("make", folder);
            made.push(folder.to_owned());
            Ok(())
        }

        fn sync_folder(&self, folder: &Path) -> io::Result<()> {
            self.note("sync", folder);
            Ok(())
        }

        fn write_again(&self, _file: &Path) -> io::Result<()> {
            Err(io::ErrorKind::Unsupported.into())
        }

        fn room_file(&self, _file: &Path) -> io::Result<Box<dyn RoomFile>> {
            Err(io::ErrorKind::Unsupported.into())
        }

        fn length_of(&self, _file: &Path) -> FileLength {
            Box::new(|| Err(io::ErrorKind::Unsupported.into()))
        }
    }

    #[test]
    fn a_file_that_is_written_again_is_as_it_was() {
        let file = std::env::temp_dir().join(format!("durkenzo-again-{}", std::process::id()));
        SystemDisk.write_again(&file).expect("it isn't there");
        let bytes: Vec<u8> = (0..2 * PIECE + 7).map(|it| it as u8).collect();
        fs::write(&file, &bytes).expect("written");
        SystemDisk.write_again(&file).expect("written again");
        assert_eq!(fs::read(&file).expect("read"), bytes);
        fs::remove_file(&file).expect("removed");
    }

    #[test]
    fn folders_are_kept_by_the_disk_before_anything_lies_in_them() {
        let disk = NotingDisk::default();
        make_folders(&disk, Path::new("/data/shards")).expect("made");
        let asked = disk.asked.lock().expect("no panic").join(", ");
        assert_eq!(asked, "make /data, sync /, make /data/shards, sync /data");
    }
}
