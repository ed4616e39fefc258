use crate::chance::Chance;
use crate::mutator;
use crate::target::{holds, Target};
use durkenzo_fleet::respelled;

/// How many bytes come before those that the length of a frame counts.
const LENGTH: usize = 4;

/// The messages between clients and servers of a fleet behind their greeting: a request, or a response.
pub struct FleetFrames;

impl Target for FleetFrames {
    fn check(&mut self, input: &[u8]) -> Result<(), String> {
        for again in respelled(input).into_iter().flatten() {
            holds(input.starts_with(&again), || {
                format!("spelled anew it has other bytes: {again:?}")
            })?;
        }
        Ok(())
    }

    fn words(&self) -> &[&'static [u8]] {
        &[
            b"\0\0\0\x02SM",
            b"\0\0\0\x07MIGRATE",
            b"\0\0\0\x12",
            b"\0\x10\0\x40",
        ]
    }

    fn seeds(&mut self) -> Vec<Vec<u8>> {
        let call = [&[1, 0, 3, 0, 1, 2][..], &[0; 8], &[0, 0, 1, 244], b"hit"].concat();
        let hand = [&[3, 0, 3, 0, 2][..], &[0; 16], &[1], &[0; 34], b"piece"].concat();
        let words = [&[4, 0][..], self.words()[0], self.words()[1]].concat();
        let copy = [&[2, 0, 3][..], &[0; 34]].concat();
        let answered = [&[1, 0, 2, 1][..], &[0; 8], b"answer"].concat();
        let all = [
            &call[..],
            &hand,
            &words,
            &copy,
            &answered,
            &[5],
            b"\x02paused",
        ];
        all.map(framed).into()
    }

    /// Spoils the input, and then mostly mends its length, because otherwise all inputs would fail there.
    fn spoil(&self, input: &mut Vec<u8>, other: &[u8], chance: &mut Chance) {
        mutator::spoil(input, other, self.words(), chance);
        if chance.below(4) > 0 {
            let length = input.len().saturating_sub(LENGTH) as u32;
            if let Some(first) = input.first_chunk_mut() {
                *first = length.to_be_bytes();
            }
        }
    }
}

fn framed(rest: &[u8]) -> Vec<u8> {
    [&(rest.len() as u32).to_be_bytes()[..], rest].concat()
}
