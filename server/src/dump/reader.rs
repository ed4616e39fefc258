use super::checksum::DumpChecksum;
use super::writer::path_of;
use super::{DumpFault, DumpHead, ShardHead, MAGIC, VERSION};
use crate::body::{new_shard, BodyReply, BodyRequest, BoxedBody, ValueRef, MAX_KEY, MAX_TEXT};
use crate::memory;
use rustix::fs::OFlags;
use std::fs::{File, OpenOptions};
use std::io::{BufRead, BufReader, Read};
use std::os::unix::fs::OpenOptionsExt;
use std::path::Path;

/// The most bytes of a line other than the second.
const MAX_LINE: u64 = 256;
/// The most bytes of the second line: 4,096 bounds of 255 bytes, each as digits.
const MAX_HEAD: u64 = 8 << 20;

/// The content of a dump.
pub struct Loaded {
    /// The stand of each shard.
    pub heads: Vec<ShardHead>,
    /// The content of each shard.
    pub bodies: Vec<BoxedBody>,
}

/// Reads the whole file with this name in the folder, for a server with this head.
pub fn read(folder: &Path, name: &str, head: &DumpHead) -> Result<Loaded, DumpFault> {
    let file = opened(&path_of(folder, name)?)?;
    let mut dump = DumpInput {
        file: BufReader::new(file),
        sum: DumpChecksum::new(),
    };
    head.takes(&dump.head()?)?;
    let mut loaded = Loaded {
        heads: Vec::new(),
        bodies: Vec::new(),
    };
    for shard in 0..head.shards {
        let line = dump.line(MAX_LINE)?;
        let head = shard_of(&line).filter(|it| it.shard == shard);
        let head = head.ok_or(DumpFault::Torn)?;
        let mut body = new_shard().map_err(|_| DumpFault::NoMemory)?;
        for _ in 0..head.pairs {
            dump.pair(&mut body)?;
        }
        loaded.heads.push(head);
        loaded.bodies.push(body);
    }
    dump.end(&loaded)?;
    Ok(loaded)
}

/// Opens the file at this path for reading. Refuses everything that isn't a file, because opening a fifo would wait for
/// a writer.
pub(super) fn opened(path: &Path) -> Result<File, DumpFault> {
    let mut options = OpenOptions::new();
    // rustix declares these bits as u32 or i32, depending on how it calls the system.
    #[allow(clippy::unnecessary_cast)]
    let flags = OFlags::NONBLOCK.bits() as i32;
    options.read(true).custom_flags(flags);
    let file = options.open(path).map_err(DumpFault::File)?;
    match file.metadata()?.is_file() {
        true => Ok(file),
        false => Err(DumpFault::Foreign),
    }
}

fn shard_of(line: &str) -> Option<ShardHead> {
    let words: Vec<_> = line.split(' ').collect();
    match words.split_first() {
        Some((&"shard", words)) => ShardHead::of(words),
        _ => None,
    }
}

/// A file that is read from its beginning.
struct DumpInput {
    file: BufReader<File>,
    sum: DumpChecksum,
}

impl DumpInput {
    /// Returns the next line without its end. It may have at most so many bytes.
    fn line(&mut self, most: u64) -> Result<String, DumpFault> {
        let mut line = Vec::new();
        (&mut self.file).take(most).read_until(b'\n', &mut line)?;
        self.sum.take(&line);
        match line.pop() {
            Some(b'\n') => String::from_utf8(line).map_err(|_| DumpFault::Torn),
            _ => Err(DumpFault::Torn),
        }
    }

    fn head(&mut self) -> Result<DumpHead, DumpFault> {
        let first = self.line(MAX_LINE).map_err(|fault| match fault {
            DumpFault::Torn => DumpFault::Foreign,
            other => other,
        })?;
        match first.strip_prefix(MAGIC) {
            None => return Err(DumpFault::Foreign),
            Some(VERSION) => {}
            Some(_) => return Err(DumpFault::Version),
        }
        serde_json::from_str(&self.line(MAX_HEAD)?).map_err(|_| DumpFault::Torn)
    }

    /// Reads so many bytes.
    fn bytes(&mut self, count: usize) -> Result<Vec<u8>, DumpFault> {
        let mut bytes = Vec::new();
        memory::reserve(&mut bytes, count).map_err(|_| DumpFault::NoMemory)?;
        bytes.resize(count, 0);
        self.file.read_exact(&mut bytes)?;
        self.sum.take(&bytes);
        Ok(bytes)
    }

    /// Reads the next pair into the body.
    fn pair(&mut self, body: &mut BoxedBody) -> Result<(), DumpFault> {
        let line = self.line(MAX_LINE)?;
        let words: Vec<_> = line.split(' ').collect();
        let [kind, length, rest] = words[..] else {
            return Err(DumpFault::Torn);
        };
        let length = bounded(length, MAX_KEY).filter(|it| *it > 0);
        let key = self.bytes(length.ok_or(DumpFault::Torn)?)?;
        let text;
        let value = match kind {
            "count" => ValueRef::Count(rest.parse().map_err(|_| DumpFault::Torn)?),
            "text" => {
                text = self.bytes(bounded(rest, MAX_TEXT).ok_or(DumpFault::Torn)?)?;
                ValueRef::Text(&text)
            }
            _ => return Err(DumpFault::Torn),
        };
        if self.bytes(1)? != b"\n" {
            return Err(DumpFault::Torn);
        }
        match body.apply(BodyRequest::Put(&key, value)) {
            BodyReply::Refused(_) => Err(DumpFault::NoMemory),
            _ => Ok(()),
        }
    }

    /// Checks that the file ends here, and that its last line says so.
    fn end(&mut self, loaded: &Loaded) -> Result<(), DumpFault> {
        let (sum, shards) = (self.sum.sum(), loaded.heads.len());
        let pairs: u64 = loaded.heads.iter().map(|it| it.pairs).sum();
        let is_whole = self.line(MAX_LINE)? == format!("end {shards} {pairs} {sum:016x}");
        match is_whole && self.file.fill_buf()?.is_empty() {
            true => Ok(()),
            false => Err(DumpFault::Torn),
        }
    }
}

fn bounded(word: &str, most: usize) -> Option<usize> {
    word.parse().ok().filter(|it| *it <= most)
}

#[cfg(test)]
mod tests {
    use super::super::head::MAX_GENERATION;
    use super::super::{shard_text, DumpFile};
    use super::*;
    use crate::keyspace::Rule;
    use durkenzo::{Record, Stand};
    use std::fs;

    fn head() -> DumpHead {
        DumpHead::new(2, &Rule::Bounds(vec![Vec::new(), b"m".to_vec()]))
    }

    /// Makes a folder with a dump of two shards, and returns the bytes of the dump, too.
    fn dumped(name: &str) -> (std::path::PathBuf, Vec<u8>) {
        dumped_at(name, 9)
    }

    /// Does the same, with this generation for both shards.
    fn dumped_at(name: &str, generation: u64) -> (std::path::PathBuf, Vec<u8>) {
        let folder = std::env::temp_dir().join(format!("durkenzo-{name}-{}", std::process::id()));
        fs::create_dir_all(&folder).unwrap();
        let mut file = DumpFile::create(&folder, "dump", &head()).unwrap();
        for shard in 0..2 {
            let mut body = new_shard().unwrap();
            for number in 0..250 {
                let key = format!("key {number}\n");
                let value = match number % 2 {
                    0 => ValueRef::Count(number - 100),
                    _ => ValueRef::Text(b"two\nlines"),
                };
                body.apply(BodyRequest::Put(key.as_bytes(), value));
            }
            let (text, pairs) = shard_text(body.as_mut()).unwrap();
            let stand = Stand::Forwarding { owner: 1, next: 2 };
            let record = Record {
                stand,
                admitted: true,
                generation: 8,
            };
            let head = ShardHead::new(shard, record, generation, pairs);
            file.add(&head, &text).unwrap();
        }
        assert_eq!(file.finish().unwrap(), 500);
        let bytes = fs::read(folder.join("dump")).unwrap();
        (folder, bytes)
    }

    #[test]
    fn what_was_written_is_read() {
        let (folder, _) = dumped("whole");
        let mut loaded = read(&folder, "dump", &head()).unwrap();
        assert_eq!(
            loaded.heads[1].stand,
            Stand::Forwarding { owner: 1, next: 2 }
        );
        assert_eq!(
            (loaded.heads[0].generation, loaded.bodies[0].keys()),
            (9, 250)
        );
        let told = loaded.bodies[1].apply(BodyRequest::Get(b"key 4\n"));
        assert_eq!(told, BodyReply::Value(ValueRef::Count(-96)));
        fs::remove_dir_all(folder).unwrap();
    }

    #[test]
    fn each_cut_and_each_change_is_noticed() {
        let (folder, bytes) = dumped("torn");
        let name = |bytes: &[u8]| {
            fs::write(folder.join("other"), bytes).unwrap();
            let read = read(&folder, "other", &head());
            read.map(|_| "Read").unwrap_or_else(|fault| fault.name())
        };
        assert_eq!(name(&bytes), "Read");
        for end in (0..bytes.len()).step_by(7) {
            assert!(
                matches!(name(&bytes[..end]), "TornFile" | "ForeignFile"),
                "{end}"
            );
        }
        for at in (0..bytes.len()).step_by(11) {
            let mut changed = bytes.clone();
            changed[at] ^= 1;
            assert_ne!(name(&changed), "Read", "{at}");
        }
        assert_eq!(name(b"durkenzo-dump 2\n"), "BadVersion");
        assert_eq!(name(&[&bytes[..], b"\n"].concat()), "TornFile");
        fs::remove_dir_all(folder).unwrap();
    }

    #[test]
    fn a_generation_leaves_room_for_those_behind_it() {
        for (generation, wanted) in [
            (MAX_GENERATION, "Read"),
            (MAX_GENERATION + 1, "TornFile"),
            (u64::MAX, "TornFile"),
        ] {
            let (folder, _) = dumped_at("high", generation);
            let read = read(&folder, "dump", &head());
            let found = read.map_or_else(|fault| fault.name(), |_| "Read");
            assert_eq!(found, wanted, "{generation}");
            fs::remove_dir_all(folder).unwrap();
        }
    }

    #[test]
    fn other_shards_and_names_are_refused() {
        let (folder, _) = dumped("other");
        let other = DumpHead::new(1, &Rule::Hash(2));
        let name = |name, head| read(&folder, name, head).err().unwrap().name();
        assert_eq!(name("dump", &other), "OtherShards");
        assert_eq!(name("none", &other), "BadFile");
        for wrong in ["", ".", "..", "../dump", "a/b", "-x", "dump.part"] {
            assert_eq!(name(wrong, &other), "BadName", "{wrong}");
        }
        fs::remove_dir_all(folder).unwrap();
    }
}
