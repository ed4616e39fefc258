use crate::chance::Chance;

/// The longest input.
pub const LONGEST: usize = 1 << 17;
/// Bytes at which code often decides.
const BYTES: [u8; 12] = [0, 1, 2, 9, 10, 13, 32, 48, 127, 128, 254, 255];
/// Numbers at which code often decides, in digits.
const NUMBERS: [&[u8]; 10] = [
    b"0",
    b"-1",
    b"1",
    b"255",
    b"65535",
    b"65536",
    b"4294967296",
    b"9223372036854775807",
    b"18446744073709551615",
    b"1e999",
];

/// Spoils the input some times, at random: with these words, and with pieces of another input.
pub fn spoil(input: &mut Vec<u8>, other: &[u8], words: &[&[u8]], chance: &mut Chance) {
    for _ in 0..=chance.below(4) {
        spoil_once(input, other, words, chance);
    }
    input.truncate(LONGEST);
}

fn spoil_once(input: &mut Vec<u8>, other: &[u8], words: &[&[u8]], chance: &mut Chance) {
    let at = chance.below(input.len() + 1);
    let most = input.len() - at;
    let length = most.min(chance.small(9));
    match chance.below(11) {
        0 => flip(input, at, 1 << chance.below(8)),
        1 => set(input, at, *chance.one(&BYTES)),
        2 => set(input, at, chance.number() as u8),
        3 => drop(input.drain(at..at + length)),
        4 => copy(input, at, length, chance),
        5 => insert(input, at, chance.one::<&[u8]>(&NUMBERS)),
        6 if !words.is_empty() => insert(input, at, chance.one::<&[u8]>(words)),
        7 => insert(input, at, piece(other, chance)),
        8 => input.truncate(at),
        9 => number(input, at, chance),
        _ => overwrite(input, at, piece(other, chance)),
    }
}

fn flip(input: &mut [u8], at: usize, bit: u8) {
    if let Some(byte) = input.get_mut(at) {
        *byte ^= bit;
    }
}

fn set(input: &mut [u8], at: usize, byte: u8) {
    if let Some(place) = input.get_mut(at) {
        *place = byte;
    }
}

fn insert(input: &mut Vec<u8>, at: usize, bytes: &[u8]) {
    input.splice(at..at, bytes.iter().copied());
}

fn overwrite(input: &mut [u8], at: usize, bytes: &[u8]) {
    for (place, byte) in input[at..].iter_mut().zip(bytes) {
        *place = *byte;
    }
}

/// Repeats a part, some times.
fn copy(input: &mut Vec<u8>, at: usize, length: usize, chance: &mut Chance) {
    let bytes = input[at..at + length].repeat(chance.small(6));
    let to = chance.below(input.len() + 1);
    insert(input, to, &bytes);
}

fn piece<'a>(other: &'a [u8], chance: &mut Chance) -> &'a [u8] {
    let start = chance.below(other.len());
    let length = chance.small(10);
    &other[start..other.len().min(start + length)]
}

/// Changes a number of 8 bytes, the highest first, by a little.
fn number(input: &mut [u8], at: usize, chance: &mut Chance) {
    if let Some(Ok(bytes)) = input.get(at..at + 8).map(<[u8; 8]>::try_from) {
        let number = u64::from_be_bytes(bytes).wrapping_add(chance.below(9) as u64);
        overwrite(input, at, &number.wrapping_sub(4).to_be_bytes());
    }
}
