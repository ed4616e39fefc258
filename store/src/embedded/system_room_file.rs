use super::disk::RoomFile;
use rustix::fs::{fallocate, fstatvfs, FallocateFlags};
use rustix::io::Errno;
use std::fs::File;
use std::io::{self, Seek, SeekFrom, Write};
use std::os::unix::fs::MetadataExt;
use std::path::Path;

/// The block size in which the system counts a file's room.
const BLOCK: u64 = 512;

/// A file of the system.
pub(super) struct SystemRoomFile(File);

impl SystemRoomFile {
    pub(super) fn open(file: &Path) -> io::Result<SystemRoomFile> {
        let mut options = File::options();
        let options = options.read(true).write(true).create(true).truncate(false);
        Ok(SystemRoomFile(options.open(file)?))
    }
}

impl RoomFile for SystemRoomFile {
    fn room(&self) -> io::Result<u64> {
        let of_file = self.0.metadata()?;
        // A copied file may have no room of its own.
        Ok(of_file.len().min(of_file.blocks() * BLOCK))
    }

    fn set_length(&mut self, length: u64) -> io::Result<()> {
        self.0.set_len(length)
    }

    fn allocate(&mut self, length: u64) -> io::Result<()> {
        match fallocate(&self.0, FallocateFlags::empty(), 0, length) {
            // If the file system can't do that, written bytes take the same room.
            Err(Errno::OPNOTSUPP | Errno::NOSYS) => {
                self.0.seek(SeekFrom::Start(0))?;
                io::copy(&mut io::Read::take(io::repeat(0), length), &mut self.0)?;
                self.0.flush()
            }
            told => Ok(told?),
        }
    }

    fn free(&self) -> io::Result<u64> {
        let disk = fstatvfs(&self.0)?;
        Ok(disk.f_bavail * disk.f_frsize)
    }

    fn disk_size(&self) -> io::Result<u64> {
        let disk = fstatvfs(&self.0)?;
        Ok(disk.f_blocks * disk.f_frsize)
    }
}
