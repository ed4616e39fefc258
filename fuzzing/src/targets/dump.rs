use crate::chance::Chance;
use crate::mutator;
use crate::target::{holds, Target};
use durkenzo::Board;
use durkenzo_server::body::{new_shard, BodyRequest, BoxedBody, ValueRef};
use durkenzo_server::dump::{read, restore, shard_text, DumpFault, DumpFile, DumpHead, Loaded};
use durkenzo_server::keyspace::Rule;
use std::fs;
use std::path::{Path, PathBuf};

/// How many servers load it.
const SERVERS: u16 = 3;

/// A file of `SM DUMP`, as `SM LOAD` reads it.
pub struct DumpBytes {
    folder: PathBuf,
    head: DumpHead,
}

impl Target for DumpBytes {
    fn check(&mut self, input: &[u8]) -> Result<(), String> {
        fs::write(self.folder.join("dump"), input).map_err(|it| it.to_string())?;
        let Ok(mut loaded) = read(&self.folder, "dump", &self.head) else {
            return Ok(());
        };
        let once = self.spelled(&mut loaded).map_err(|it| it.to_string())?;
        let heads = loaded.heads.clone();
        restored(loaded);
        let again = read(&self.folder, "spelled", &self.head);
        let mut again = again.map_err(|it| format!("spelled anew it is refused: {it}"))?;
        let are_same = again.heads.iter().zip(&heads).all(|(one, other)| {
            (one.shard, one.stand, one.generation) == (other.shard, other.stand, other.generation)
        });
        holds(are_same, || "spelled anew it has other heads".to_owned())?;
        let twice = self.spelled(&mut again).map_err(|it| it.to_string())?;
        holds(once == twice, || {
            "spelled twice it has other bytes".to_owned()
        })
    }

    fn words(&self) -> &[&'static [u8]] {
        &[
            b"text 1 1\nab\n",
            b"count 1 7\na\n",
            b"shard 1 Serving 2 0 9 0\n",
            b"Forwarding 1 2",
            b"Vacant 0 0",
            b"durkenzo-dump 1\n",
            b"end 2 4 ",
        ]
    }

    fn seeds(&mut self) -> Vec<Vec<u8>> {
        let mut bodies: Vec<BoxedBody> = (0..2).filter_map(|_| new_shard().ok()).collect();
        for body in &mut bodies {
            body.apply(BodyRequest::Put(b"key", ValueRef::Text(b"two\nlines")));
            body.apply(BodyRequest::Put(b"n", ValueRef::Count(-7)));
        }
        let lines = ["shard 0 Forwarding 1 2 9 2", "shard 1 Paused 3 0 4 2"];
        let head = serde_json::to_string(&self.head).unwrap_or_default();
        let mut bytes = format!("durkenzo-dump 1\n{head}\n").into_bytes();
        for (line, body) in lines.iter().zip(&mut bodies) {
            let pairs = shard_text(body.as_mut()).unwrap_or_default().0;
            bytes.extend([line.as_bytes(), b"\n", &pairs].concat());
        }
        bytes.extend(b"end 2 4 0\n");
        mend(&mut bytes);
        vec![bytes]
    }

    /// Spoils the input, and then mostly mends its checksum, because otherwise all inputs would fail there.
    fn spoil(&self, input: &mut Vec<u8>, other: &[u8], chance: &mut Chance) {
        mutator::spoil(input, other, self.words(), chance);
        if chance.below(4) > 0 {
            mend(input);
        }
    }
}

impl DumpBytes {
    pub fn new(room: &Path) -> DumpBytes {
        let rule = Rule::Bounds(vec![Vec::new(), b"m".to_vec()]);
        DumpBytes {
            folder: room.to_owned(),
            head: DumpHead::new(SERVERS, &rule),
        }
    }

    /// Writes it anew, and returns the bytes.
    fn spelled(&self, loaded: &mut Loaded) -> Result<Vec<u8>, DumpFault> {
        let mut file = DumpFile::create(&self.folder, "spelled", &self.head)?;
        for (head, body) in loaded.heads.iter().zip(&mut loaded.bodies) {
            let text = shard_text(body.as_mut());
            let (text, pairs) = text.map_err(|_| DumpFault::NoMemory)?;
            let mut head = *head;
            head.pairs = pairs;
            file.add(&head, &text)?;
        }
        file.finish()?;
        Ok(fs::read(self.folder.join("spelled"))?)
    }
}

/// Restores the shards of a board to these stands, if they can have them.
fn restored(loaded: Loaded) {
    let Loaded { heads, bodies } = loaded;
    if let Ok(board) = Board::builder().servers(SERVERS).build(bodies) {
        // A stand that is impossible is refused by name.
        let _ = restore(&board.control(), &heads);
    }
}

/// Makes the last line state the checksum of the lines before it, and the number of shards and pairs that the lines
/// have.
fn mend(input: &mut Vec<u8>) {
    let body = input.strip_suffix(b"\n").unwrap_or(input);
    let start = body
        .iter()
        .rposition(|it| *it == b'\n')
        .map_or(0, |it| it + 1);
    let text = String::from_utf8_lossy(&input[..start]).into_owned();
    let pairs = text.lines().filter_map(|it| {
        let words: Vec<_> = it.split(' ').collect();
        let is_head = words.len() == 7 && words[0] == "shard";
        is_head.then(|| words[6].parse::<u64>().ok()).flatten()
    });
    let pairs: u64 = pairs.fold(0, u64::wrapping_add);
    let sum = input[..start]
        .iter()
        .fold(0xcbf2_9ce4_8422_2325u64, |sum, byte| {
            (sum ^ u64::from(*byte)).wrapping_mul(0x0100_0000_01b3)
        });
    input.truncate(start);
    input.extend(format!("end 2 {pairs} {sum:016x}\n").bytes());
}
