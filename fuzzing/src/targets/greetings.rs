use crate::chance::Chance;
use crate::mutator;
use crate::target::{holds, Target};
use durkenzo_control::links::Greeting;

/// How many bytes come before those that the length of a greeting counts, and the place of the length.
const HEAD: usize = 9;
const LENGTH: usize = 5;

/// How a connection between two processes begins.
pub struct Greetings;

impl Target for Greetings {
    fn check(&mut self, input: &[u8]) -> Result<(), String> {
        let Ok(Some((greeting, version, end))) = Greeting::read(input) else {
            return Ok(());
        };
        holds(HEAD < end && end <= input.len(), || {
            format!("a greeting ends at {end}")
        })?;
        let short = Greeting::read(&input[..end - 1]);
        holds(short == Ok(None), || {
            format!("without its last byte it is {short:?}")
        })?;
        let mut spelled = Vec::new();
        greeting.write(version, &mut spelled);
        let again = Greeting::read(&spelled);
        let is_same = match (&greeting, &again) {
            // The reason is a text for people. It is cut, and other bytes in it are marked.
            (Greeting::Refusal(_), Ok(Some((Greeting::Refusal(_), _, length)))) => {
                *length == spelled.len()
            }
            _ => spelled == input[..end],
        };
        holds(is_same, || {
            format!("spelled anew {greeting:?} is {again:?}")
        })
    }

    fn words(&self) -> &[&'static [u8]] {
        &[b"SMP\0", b"\x01\0\0\0", b"a secret", b"\xc3\xbc"]
    }

    fn seeds(&mut self) -> Vec<Vec<u8>> {
        let identity = [0, 3, 1, 2, 3, 4, 5, 6, 7, 8, 0, 0, 0, 0, 0, 0, 0, 9];
        // From the second version on, the table of commands comes behind it.
        let newer = [&identity[..], &[0, 7]].concat();
        let seeds = [(1, &identity[..]), (2, &newer[..])].map(|(version, identity)| {
            [
                greeted(
                    version,
                    1,
                    &[identity, &[0, 2, 0, 0, 0, 8], b"a secret"].concat(),
                ),
                greeted(version, 1, &[identity, &[0, 2, 0, 0, 0, 0]].concat()),
                greeted(version, 2, identity),
                greeted(version, 3, b"its secret is another one"),
            ]
        });
        seeds.concat()
    }

    /// Spoils the input, and then mostly mends its length, because otherwise all inputs would fail there.
    fn spoil(&self, input: &mut Vec<u8>, other: &[u8], chance: &mut Chance) {
        mutator::spoil(input, other, self.words(), chance);
        let length = input.len().saturating_sub(HEAD) as u32;
        if let Some(place) = input.get_mut(LENGTH..HEAD).filter(|_| chance.below(4) > 0) {
            place.copy_from_slice(&length.to_be_bytes());
        }
    }
}

/// Returns a greeting of this version and kind.
fn greeted(version: u8, kind: u8, rest: &[u8]) -> Vec<u8> {
    let length = (1 + rest.len()) as u32;
    [
        b"SMP\0",
        &[version][..],
        &length.to_be_bytes()[..],
        &[kind],
        rest,
    ]
    .concat()
}
