use crate::chance::Chance;

/// How many bytes of a write the disk keeps or loses at once.
const SECTOR: usize = 512;

/// A change of a file that the disk doesn't have yet.
enum Change {
    Write { at: usize, bytes: Vec<u8> },
    Length(usize),
}

impl Change {
    fn make(&self, bytes: &mut Vec<u8>) {
        match self {
            Change::Length(length) => bytes.resize(*length, 0),
            Change::Write { at, bytes: written } => {
                let end = at + written.len();
                bytes.resize(bytes.len().max(end), 0);
                bytes[*at..end].copy_from_slice(written);
            }
        }
    }

    /// Shortens a write to the part that a disk has if it stops in the middle.
    fn torn(&mut self, chance: &mut Chance) {
        if let Change::Write { at, bytes } = self {
            // Sectors are counted from the beginning of the file, not of the write.
            let sectors = 1 + (*at % SECTOR + bytes.len()) / SECTOR;
            let end = chance.below(sectors as u64) as usize * SECTOR;
            bytes.truncate(end.saturating_sub(*at % SECTOR));
        }
    }
}

/// A file of a simulated disk: the bytes that processes see, and those that are left if power is lost.
#[derive(Default)]
pub struct DiskFile {
    seen: Vec<u8>,
    kept: Vec<u8>,
    /// The changes since the disk last had everything, in their order.
    unsynced: Vec<Change>,
}

impl DiskFile {
    pub fn length(&self) -> usize {
        self.seen.len()
    }

    /// Reads as many bytes from this place on as the file has, and returns how many.
    pub fn read(&self, at: usize, into: &mut [u8]) -> usize {
        let from = self.seen.get(at..).unwrap_or_default();
        let count = from.len().min(into.len());
        into[..count].copy_from_slice(&from[..count]);
        count
    }

    pub fn write(&mut self, at: usize, bytes: &[u8]) {
        let bytes = bytes.to_vec();
        self.change(Change::Write { at, bytes });
    }

    pub fn set_length(&mut self, length: usize) {
        self.change(Change::Length(length));
    }

    fn change(&mut self, change: Change) {
        change.make(&mut self.seen);
        self.unsynced.push(change);
    }

    /// Syncs the file: the disk has all of its changes then.
    pub fn sync(&mut self) {
        let unsynced = std::mem::take(&mut self.unsynced);
        unsynced.iter().for_each(|it| it.make(&mut self.kept));
    }

    /// Gives up, by chance, changes that the disk doesn't have, because a sync failed. No later sync keeps them, as on
    /// Linux.
    pub fn give_up_unsynced(&mut self, chance: &mut Chance) {
        if chance.is_true(1, 2) {
            self.unsynced.retain(|_| chance.is_true(1, 2));
        }
    }

    /// Loses power. Each change that the disk doesn't have is kept or lost by chance, and only a part of a write may be
    /// kept. Returns how many changes are kept, and how many there were.
    pub fn lose_unsynced(&mut self, chance: &mut Chance) -> (usize, usize) {
        let unsynced = std::mem::take(&mut self.unsynced);
        let (fate, count) = (chance.below(4), unsynced.len());
        let mut kept = 0;
        for (number, mut change) in unsynced.into_iter().enumerate() {
            let is_kept = match fate {
                0 => false,
                1 => true,
                // The later a change was made, the less likely it is kept.
                2 => number as u64 * 2 < chance.below(2 * count as u64),
                _ => chance.is_true(1, 2),
            };
            if !is_kept {
                continue;
            }
            kept += 1;
            if fate > 1 && chance.is_true(1, 4) {
                change.torn(chance);
            }
            change.make(&mut self.kept);
        }
        self.seen = self.kept.clone();
        (kept, count)
    }
}

#[cfg(test)]
mod tests {
    use super::*;

    #[test]
    fn what_was_synced_is_kept() {
        for seed in 0..100 {
            let mut file = DiskFile::default();
            file.write(0, &[1; 2_000]);
            file.sync();
            file.write(2_000, &[2; 2_000]);
            file.set_length(2_500);
            let mut seen = [0; 4_000];
            assert_eq!(file.read(0, &mut seen), 2_500);
            file.lose_unsynced(&mut Chance::new(seed));
            let length = file.read(0, &mut seen);
            assert!((2_000..=4_000).contains(&length), "{length}");
            assert!(seen[..2_000].iter().all(|it| *it == 1));
        }
    }
}
