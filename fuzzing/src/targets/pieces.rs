use crate::chance::Chance;
use crate::mutator;

/// Returns the pieces of an input, each behind its length in two bytes; the last may be cut.
pub fn of(input: &[u8]) -> Vec<&[u8]> {
    let (mut rest, mut pieces) = (input, Vec::new());
    while let [high, low, after @ ..] = rest {
        let length = usize::from(u16::from_be_bytes([*high, *low]));
        let (piece, next) = after.split_at(length.min(after.len()));
        pieces.push(piece);
        rest = next;
    }
    pieces
}

/// Returns the input of these pieces.
pub fn spelled<T: AsRef<[u8]>>(pieces: &[T]) -> Vec<u8> {
    let each = pieces.iter().flat_map(|it| {
        let bytes = &it.as_ref()[..it.as_ref().len().min(usize::from(u16::MAX))];
        [&(bytes.len() as u16).to_be_bytes()[..], bytes].concat()
    });
    each.collect()
}

/// Spoils a piece, or sometimes all.
pub fn spoil(input: &mut Vec<u8>, other: &[u8], words: &[&[u8]], chance: &mut Chance) {
    let mut pieces: Vec<Vec<u8>> = of(input).into_iter().map(<[u8]>::to_vec).collect();
    if pieces.is_empty() || chance.below(8) == 0 {
        return mutator::spoil(input, other, words, chance);
    }
    let at = chance.below(pieces.len());
    match (chance.below(8), of(other)) {
        (0, others) if !others.is_empty() => pieces[at] = chance.one(&others).to_vec(),
        (1, others) if !others.is_empty() => pieces.insert(at, chance.one(&others).to_vec()),
        (2, _) => drop(pieces.remove(at)),
        (_, others) => {
            let other = others.get(at).copied().unwrap_or(other);
            mutator::spoil(&mut pieces[at], other, words, chance);
        }
    }
    *input = spelled(&pieces);
    input.truncate(mutator::LONGEST);
}
