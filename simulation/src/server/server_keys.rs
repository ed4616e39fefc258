use crate::chance::Chance;

/// The bound of each shard, if there are four. With two shards, those of the first and of the third are used.
const BOUNDS: [&str; 4] = ["", "g", "m", "t"];
/// A letter of each of these shards.
const LETTERS: [u8; 4] = *b"ahnu";

/// The keys of a schedule's clients: of each shard a text, to which they append, and a number, to which they add.
#[derive(Clone, Debug)]
pub struct ServerKeys {
    shards: u16,
}

/// One of these keys.
#[derive(Clone, Copy, Debug, PartialEq, Eq, PartialOrd, Ord)]
pub struct ServerKey {
    pub shard: u16,
    pub is_text: bool,
}

impl ServerKeys {
    /// Returns the keys of so many shards: two or four.
    pub fn new(shards: u16) -> ServerKeys {
        ServerKeys { shards }
    }

    fn step(&self) -> usize {
        LETTERS.len() / usize::from(self.shards)
    }

    /// Returns the lower bound of each shard.
    pub fn bounds(&self) -> Vec<Vec<u8>> {
        let bounds = BOUNDS.iter().step_by(self.step());
        bounds.map(|it| it.as_bytes().to_vec()).collect()
    }

    /// Returns all keys.
    pub fn all(&self) -> Vec<ServerKey> {
        let of = |shard| [true, false].map(|is_text| ServerKey { shard, is_text });
        (0..self.shards).flat_map(of).collect()
    }

    /// Draws a text or a number.
    pub fn drawn(&self, chance: &mut Chance, is_text: bool) -> ServerKey {
        let shard = chance.below(u64::from(self.shards)) as u16;
        ServerKey { shard, is_text }
    }

    /// Returns the bytes of a key.
    pub fn name(&self, key: ServerKey) -> String {
        let letter = LETTERS[usize::from(key.shard) * self.step()];
        let kind = if key.is_text { 't' } else { 'n' };
        format!("{}{kind}", char::from(letter))
    }
}

#[cfg(test)]
mod tests {
    use super::*;

    #[test]
    fn each_shard_has_a_text_and_a_number() {
        for shards in [2, 4] {
            let keys = ServerKeys::new(shards);
            let bounds = keys.bounds();
            assert_eq!(bounds.len(), usize::from(shards));
            for key in keys.all() {
                let name = keys.name(key).into_bytes();
                let below = bounds.iter().filter(|it| **it <= name).count();
                assert_eq!(below, usize::from(key.shard) + 1);
            }
        }
    }
}
