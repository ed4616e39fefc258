//! The service of the trial. It counts calls by key, and keeps the numbers of the last calls.
use crate::message::{now, numbers, spelled, Asked, Told, LAST};
use durkenzo_fleet::{Call, Came, Changes, Fault, Piece, Service, Shard};
use std::collections::{BTreeMap, BTreeSet, VecDeque};

pub struct CountService {
    process: u64,
    moves_in_pieces: bool,
}

/// The most bytes of a key in a piece.
const KEY: usize = 8 * (3 + LAST);

/// The counts of a shard.
pub struct Counts {
    origin: u64,
    is_new: bool,
    keys: BTreeMap<u32, Count>,
    /// The keys that aren't copied to the next owner, or were counted since. There are none if there is no copy.
    uncopied: Option<BTreeSet<u32>>,
}

#[derive(Default)]
struct Count {
    count: u64,
    last: VecDeque<u64>,
}

/// Returns when the shard with this origin began.
pub fn began_at(origin: u64) -> u64 {
    origin >> 8
}

impl CountService {
    pub fn new(moves_in_pieces: bool) -> CountService {
        let process = now() << 8 | u64::from(std::process::id() as u8);
        CountService {
            process,
            moves_in_pieces,
        }
    }

    /// Returns the counts of a shard that begins.
    fn begun(&self, is_new: bool) -> Counts {
        // In this nanosecond, no other shard begins in a process with the same number.
        let origin = now() << 8 | self.process & 0xff;
        let keys = BTreeMap::new();
        Counts {
            origin,
            is_new,
            keys,
            uncopied: None,
        }
    }
}

impl Counts {
    /// Returns the bytes of these keys and their counts.
    fn bytes(&self, keys: &BTreeSet<u32>) -> Vec<u8> {
        let mut all = vec![self.origin, u64::from(self.is_new)];
        for (key, it) in self.keys.iter().filter(|it| keys.contains(it.0)) {
            all.extend([u64::from(*key), it.count, it.last.len() as u64]);
            all.extend(&it.last);
        }
        spelled(all)
    }

    fn read(bytes: &[u8]) -> Option<Counts> {
        let mut read = numbers(bytes);
        let (origin, is_new) = (read.next()?, read.next()? == 1);
        let mut keys = BTreeMap::new();
        while let Some(key) = read.next() {
            let (count, length) = (read.next()?, read.next()? as usize);
            let last: VecDeque<u64> = read.by_ref().take(length).collect();
            if last.len() < length {
                return None;
            }
            keys.insert(u32::try_from(key).ok()?, Count { count, last });
        }
        Some(Counts {
            origin,
            is_new,
            keys,
            uncopied: None,
        })
    }
}

impl Service for CountService {
    type Body = Counts;

    fn add(&self, _: Shard, came: Came<'_>) -> Result<Counts, Fault> {
        match came {
            Came::New => Ok(self.begun(true)),
            Came::Lost => Ok(self.begun(false)),
            Came::Handed(bytes) => {
                Counts::read(bytes).ok_or_else(|| "what was handed over ends too early".into())
            }
        }
    }

    fn answer(&self, counts: &mut Counts, call: Call<'_>) -> Vec<u8> {
        let Some(asked) = Asked::read(call.request()) else {
            return Vec::new();
        };
        let counted = counts.keys.entry(asked.key).or_default();
        if let Some(uncopied) = &mut counts.uncopied {
            uncopied.insert(asked.key);
        }
        if asked.number > 0 {
            counted.count += 1;
            counted.last.push_back(asked.number);
            if counted.last.len() > LAST {
                counted.last.pop_front();
            }
        }
        let told = Told {
            time: now(),
            process: self.process,
            origin: counts.origin,
            is_new: counts.is_new,
            count: counted.count,
            numbers: counted.last.iter().copied().collect(),
        };
        told.bytes()
    }

    fn hand_over(&self, counts: &mut Counts) -> Vec<u8> {
        counts.bytes(&counts.keys.keys().copied().collect())
    }

    fn changes(&self) -> Option<&dyn Changes<Counts>> {
        self.moves_in_pieces.then_some(self as _)
    }
}

impl Changes<Counts> for CountService {
    fn begin_copy(&self, counts: &mut Counts) {
        counts.uncopied = Some(counts.keys.keys().copied().collect());
    }

    fn next_piece(&self, counts: &mut Counts, most: usize) -> Piece {
        let mut keys = counts.uncopied.take().unwrap_or_default();
        let rest = keys.iter().nth((most / KEY).max(1)).copied();
        let uncopied = rest.map_or_else(BTreeSet::new, |it| keys.split_off(&it));
        let (bytes, left) = (counts.bytes(&keys), (uncopied.len() * KEY) as u64);
        counts.uncopied = Some(uncopied);
        Piece { bytes, left }
    }

    fn end_copy(&self, counts: &mut Counts) {
        counts.uncopied = None;
    }

    fn begin_body(&self, _: Shard) -> Result<Counts, Fault> {
        Ok(self.begun(false))
    }

    fn add_piece(&self, counts: &mut Counts, piece: &[u8]) -> Result<(), Fault> {
        let read = Counts::read(piece).ok_or("a piece ends too early")?;
        (counts.origin, counts.is_new) = (read.origin, read.is_new);
        counts.keys.extend(read.keys);
        Ok(())
    }
}
