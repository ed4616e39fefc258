use super::disk::{Disk, RoomFile};
use std::io;
use std::path::Path;

/// The name of the file in the folder.
const FILE: &str = "durkenzo.room";
/// The most bytes that are reserved, and the part of a smaller disk.
const MOST: u64 = 8 << 20;
const PART: u64 = 4;

/// How much is reserved now, of two halves.
#[derive(Clone, Copy, Debug, PartialEq, Eq, PartialOrd, Ord)]
pub(super) enum Kept {
    Nothing,
    Half,
    Whole,
}

/// Room on the disk that is reserved for writes that make room. It is a file that takes the room and has no content.
///
/// One half lets tables grow by writes that make room. The other half always comes back, because it is only lent to
/// transactions that don't let tables grow.
pub(super) struct Reserve {
    file: Box<dyn RoomFile>,
    whole: u64,
    kept: Kept,
}

impl Reserve {
    /// Opens the reserve of the folder, with as much room as it has and can get now.
    pub(super) fn open(disk: &dyn Disk, folder: &Path) -> io::Result<Reserve> {
        let file = disk.room_file(&folder.join(FILE))?;
        let whole = MOST.min(file.disk_size()? / PART);
        let has = file.room()?;
        let kept = match () {
            () if has >= whole => Kept::Whole,
            () if has >= whole / 2 => Kept::Half,
            () => Kept::Nothing,
        };
        let mut reserve = Reserve { file, whole, kept };
        // A file with another length is cut to a known one.
        reserve.lend(kept);
        reserve.take_back();
        Ok(reserve)
    }

    /// Returns how much is reserved now.
    pub(super) fn kept(&self) -> Kept {
        self.kept
    }

    /// Returns how many bytes a half has.
    pub(super) fn half(&self) -> u64 {
        self.whole / 2
    }

    /// Returns how many bytes are free beside it.
    pub(super) fn free(&self) -> u64 {
        self.file.free().unwrap_or(0)
    }

    /// Lends everything except this much.
    pub(super) fn lend(&mut self, left: Kept) {
        let left = left.min(self.kept);
        // If the cut fails, it stays reserved.
        if self.file.set_length(self.size(left)).is_ok() {
            self.kept = left;
        }
    }

    /// Takes as much back as the disk has.
    pub(super) fn take_back(&mut self) {
        for more in [Kept::Whole, Kept::Half] {
            if more <= self.kept || self.file.allocate(self.size(more)).is_ok() {
                self.kept = self.kept.max(more);
                return;
            }
            // Others may need the part of it that it got.
            self.lend(self.kept);
        }
    }

    fn size(&self, kept: Kept) -> u64 {
        match kept {
            Kept::Nothing => 0,
            Kept::Half => self.half(),
            Kept::Whole => self.whole,
        }
    }
}

#[cfg(test)]
mod tests {
    use super::super::disk::SystemDisk;
    use super::*;
    use std::fs::{self, File};
    use std::os::unix::fs::MetadataExt;

    /// The block size in which the system counts a file's room.
    const BLOCK: u64 = 512;

    #[test]
    fn what_is_lent_is_taken_back() {
        let folder = std::env::temp_dir().join(format!("durkenzo-reserve-{}", std::process::id()));
        fs::create_dir_all(&folder).unwrap();
        let length = || fs::metadata(folder.join(FILE)).unwrap().len();
        let mut reserve = Reserve::open(&SystemDisk, &folder).unwrap();
        let whole = length();
        assert!(whole > 0 && reserve.kept() == Kept::Whole);
        reserve.lend(Kept::Half);
        assert_eq!((length(), reserve.kept()), (whole / 2, Kept::Half));
        reserve.lend(Kept::Nothing);
        assert_eq!((length(), reserve.kept()), (0, Kept::Nothing));
        reserve.take_back();
        assert_eq!((length(), reserve.kept()), (whole, Kept::Whole));
        drop(reserve);
        // The file looks like this if it is copied.
        let copy = File::create(folder.join(FILE)).unwrap();
        copy.set_len(whole).unwrap();
        assert_eq!(copy.metadata().unwrap().blocks(), 0);
        assert_eq!(
            Reserve::open(&SystemDisk, &folder).unwrap().kept(),
            Kept::Whole
        );
        assert!(copy.metadata().unwrap().blocks() * BLOCK >= whole);
        fs::remove_dir_all(&folder).unwrap();
    }
}
