use super::checksum::DumpChecksum;
use super::reader::opened;
use super::{DumpFault, DumpHead, MAGIC, VERSION};
use crate::body::{BodyRefusal, BodyReply, BodyRequest, RangeRef, ShardBody, ValueRef, MAX_PAIRS};
use crate::memory::{self, NoRoom};
use std::fs::{self, DirBuilder, File};
use std::io::{BufWriter, ErrorKind, Read, Write};
use std::ops::Bound;
use std::os::unix::fs::DirBuilderExt;
use std::path::{Path, PathBuf};
use std::sync::atomic::{AtomicU64, Ordering};

/// The mode of a folder that is made for dumps. Only its owner may look into it, because dumps hold all data.
const FOLDER_MODE: u32 = 0o700;

/// A dump while it is written. It has another name until it is whole, so that an earlier dump with the name stays until
/// then. Only a dump is ever replaced.
#[derive(Debug)]
pub struct DumpFile {
    file: BufWriter<File>,
    path: PathBuf,
    part: PathBuf,
    sum: DumpChecksum,
    shards: u16,
    pairs: u64,
    is_whole: bool,
}

/// How many dumps were begun.
static BEGUN: AtomicU64 = AtomicU64::new(0);

impl Drop for DumpFile {
    fn drop(&mut self) {
        if !self.is_whole {
            // The rest is no dump. It may be gone already.
            let _ = fs::remove_file(&self.part);
        }
    }
}

impl DumpFile {
    /// Begins the file with this name in the folder. If there is no folder, it is made.
    ///
    /// # Errors
    ///
    /// `BadName` if the name can't be a file's, `Taken` if there is something else than a dump with this name, and
    /// `File` if the system refuses.
    pub fn create(folder: &Path, name: &str, head: &DumpHead) -> Result<DumpFile, DumpFault> {
        let path = path_of(folder, name)?;
        let mut folders = DirBuilder::new();
        folders.recursive(true).mode(FOLDER_MODE).create(folder)?;
        may_write(&path)?;
        let (file, part) = part_of(folder, name)?;
        let mut dump = DumpFile {
            file: BufWriter::new(file),
            path,
            part,
            sum: DumpChecksum::new(),
            shards: 0,
            pairs: 0,
            is_whole: false,
        };
        let head = serde_json::to_string(head).map_err(std::io::Error::from)?;
        dump.write(format!("{MAGIC}{VERSION}\n{head}\n").as_bytes())?;
        Ok(dump)
    }

    /// Adds the next shard, with this line and these pairs.
    pub fn add(&mut self, head: &super::ShardHead, pairs: &[u8]) -> Result<(), DumpFault> {
        self.write(head.line().as_bytes())?;
        self.write(pairs)?;
        self.shards += 1;
        self.pairs += head.pairs;
        Ok(())
    }

    /// Ends the file, which is on the disk then. Returns how many pairs it has.
    pub fn finish(mut self) -> Result<u64, DumpFault> {
        let (shards, pairs, sum) = (self.shards, self.pairs, self.sum.sum());
        writeln!(self.file, "end {shards} {pairs} {sum:016x}")?;
        self.file.flush()?;
        self.file.get_ref().sync_all()?;
        may_write(&self.path)?;
        fs::rename(&self.part, &self.path)?;
        self.is_whole = true;
        // The name lies in the folder.
        let folder = self.path.parent().filter(|it| !it.as_os_str().is_empty());
        File::open(folder.unwrap_or(Path::new(".")))?.sync_all()?;
        Ok(pairs)
    }

    fn write(&mut self, bytes: &[u8]) -> Result<(), DumpFault> {
        self.sum.take(bytes);
        Ok(self.file.write_all(bytes)?)
    }
}

/// Makes the file that the dump has until it is whole. Returns the file and its path. A file that an earlier process
/// left stays.
fn part_of(folder: &Path, name: &str) -> Result<(File, PathBuf), DumpFault> {
    loop {
        let number = BEGUN.fetch_add(1, Ordering::Relaxed);
        let part = folder.join(format!("{name}.{number}.part"));
        match File::create_new(&part) {
            Err(error) if error.kind() == ErrorKind::AlreadyExists => {}
            file => return Ok((file?, part)),
        }
    }
}

/// Refuses a path at which there is something else than a dump.
fn may_write(path: &Path) -> Result<(), DumpFault> {
    match fs::symlink_metadata(path) {
        Err(error) if error.kind() == ErrorKind::NotFound => Ok(()),
        Err(error) => Err(error.into()),
        Ok(found) if found.is_file() && is_dump(path)? => Ok(()),
        Ok(_) => Err(DumpFault::Taken),
    }
}

/// Returns whether the file begins as a dump of any version does.
fn is_dump(path: &Path) -> Result<bool, DumpFault> {
    let mut head = Vec::new();
    let most = MAGIC.len() as u64;
    opened(path)?.take(most).read_to_end(&mut head)?;
    Ok(head == MAGIC.as_bytes())
}

/// Returns the path of the file with this name.
pub(super) fn path_of(folder: &Path, name: &str) -> Result<PathBuf, DumpFault> {
    let is_of_names = |it: char| it.is_ascii_alphanumeric() || matches!(it, '-' | '_' | '.');
    let is_name = name.chars().all(is_of_names) && !name.starts_with(['-', '.']);
    match is_name && !name.is_empty() && !name.ends_with(".part") {
        true => Ok(folder.join(name)),
        false => Err(DumpFault::BadName),
    }
}

/// Returns the pairs of a shard as a dump has them, and how many there are; or why they can't be read.
pub fn shard_text(body: &mut dyn ShardBody) -> Result<(Vec<u8>, u64), BodyRefusal> {
    let (mut text, mut count, mut last, mut most) = (Vec::new(), 0, None::<Vec<u8>>, MAX_PAIRS);
    loop {
        let range = RangeRef {
            low: last.as_deref().map_or(Bound::Unbounded, Bound::Excluded),
            high: None,
            most,
        };
        let pairs = match body.apply(BodyRequest::Scan(range)) {
            BodyReply::Pairs(pairs) => pairs,
            // There may be memory for fewer pairs.
            BodyReply::Refused(BodyRefusal::NoMemory) if most > 1 => {
                most /= 2;
                continue;
            }
            BodyReply::Refused(refusal) => return Err(refusal),
            _ => Vec::new(),
        };
        let Some((key, _)) = pairs.last() else {
            body.forget();
            return Ok((text, count));
        };
        let mut written = pairs.iter().map(|it| write_pair(*it, &mut text));
        written.try_for_each(|it| it.map_err(|NoRoom| BodyRefusal::NoMemory))?;
        count += pairs.len() as u64;
        last = Some(key.to_vec());
    }
}

fn write_pair((key, value): (&[u8], ValueRef<'_>), text: &mut Vec<u8>) -> Result<(), NoRoom> {
    let length = key.len();
    let (head, tail) = match value {
        ValueRef::Text(told) => (format!("text {length} {}\n", told.len()), told),
        ValueRef::Count(count) => (format!("count {length} {count}\n"), &b""[..]),
    };
    for bytes in [head.as_bytes(), key, tail, b"\n"] {
        memory::append(text, bytes)?;
    }
    Ok(())
}
