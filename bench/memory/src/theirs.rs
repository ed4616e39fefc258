//! The same runs over `BTreeMap<Vec<u8>, Vec<u8>>`, and over vectors that are filled one after another.

use crate::{KEY_BYTES, Rows, TEXT_BYTES};
use std::collections::BTreeMap;
use std::ops::Bound;

const BLOCK_BYTES: usize = 65_536;

type StdMap = BTreeMap<Vec<u8>, Vec<u8>>;

fn row(bytes: &[u8], length: usize, at: u32) -> &[u8] {
    let start = at as usize * length;
    bytes.get(start..start + length).unwrap_or(&[])
}

fn map_of(rows: &Rows) -> StdMap {
    let mut map = StdMap::new();
    for at in 0..(rows.keys.len() / KEY_BYTES) as u32 {
        map.insert(row(&rows.keys, KEY_BYTES, at).to_vec(), row(&rows.texts, TEXT_BYTES, at).to_vec());
    }
    map
}

fn seen(text: Option<&[u8]>) -> u64 {
    text.map_or(0, |text| text.len() as u64 + text.first().map_or(0, |byte| u64::from(*byte)))
}

fn sum_of(map: &StdMap, rows: &Rows) -> u64 {
    (0..(rows.keys.len() / KEY_BYTES) as u32).map(|at| seen(map.get(row(&rows.keys, KEY_BYTES, at)).map(Vec::as_slice))).sum()
}

/// Copies the piece so often into vectors of 65,536 bytes.
pub fn place(piece: &[u8], count: usize) -> u64 {
    let mut blocks: Vec<Vec<u8>> = Vec::new();
    for _ in 0..count {
        match blocks.last_mut() {
            Some(block) if block.capacity() - block.len() >= piece.len() => block.extend_from_slice(piece),
            _ => {
                let mut block = Vec::with_capacity(BLOCK_BYTES);
                block.extend_from_slice(piece);
                blocks.push(block);
            }
        }
    }
    blocks.iter().map(|block| block.len() as u64).sum()
}

pub fn get(rows: &Rows) -> u64 {
    let map = map_of(rows);
    rows.order.iter().map(|at| seen(map.get(row(&rows.keys, KEY_BYTES, *at)).map(Vec::as_slice))).sum()
}

/// Takes memory for each key and text that is written.
pub fn insert_over(rows: &Rows) -> u64 {
    let mut map = map_of(rows);
    for (at, other) in rows.order.iter().zip(rows.order.iter().rev()) {
        map.insert(row(&rows.keys, KEY_BYTES, *at).to_vec(), row(&rows.texts, TEXT_BYTES, *other).to_vec());
    }
    sum_of(&map, rows)
}

/// Copies each text into the memory of the one before.
pub fn copy_over(rows: &Rows) -> u64 {
    let mut map = map_of(rows);
    for (at, other) in rows.order.iter().zip(rows.order.iter().rev()) {
        if let Some(held) = map.get_mut(row(&rows.keys, KEY_BYTES, *at)) {
            held.clear();
            held.extend_from_slice(row(&rows.texts, TEXT_BYTES, *other));
        }
    }
    sum_of(&map, rows)
}

/// Makes the key hold so many copies of the text in turn, and keeps those before, as an arena does.
pub fn given(key: &[u8], text: &[u8], count: usize) -> u64 {
    let (mut map, mut before) = (StdMap::new(), Vec::new());
    for _ in 0..count {
        before.extend(map.insert(key.to_vec(), text.to_vec()));
    }
    seen(map.get(key).map(Vec::as_slice))
}

pub fn append(rows: &Rows) -> u64 {
    let mut map = map_of(rows);
    for at in &rows.order {
        if let Some(held) = map.get_mut(row(&rows.keys, KEY_BYTES, *at)) {
            held.extend_from_slice(row(&rows.texts, TEXT_BYTES, *at));
        }
    }
    sum_of(&map, rows)
}

pub fn scan(rows: &Rows) -> u64 {
    let map = map_of(rows);
    let mut sum = 0;
    for at in &rows.order {
        let range = (Bound::Included(row(&rows.keys, KEY_BYTES, *at)), Bound::Excluded(&b"\xff"[..]));
        let found: Vec<(&[u8], &[u8])> = map.range::<[u8], _>(range).take(100).map(|(key, text)| (key.as_slice(), text.as_slice())).collect();
        for (key, text) in found {
            sum += key.len() as u64 + seen(Some(text));
        }
    }
    sum
}

pub fn insert(rows: &Rows) -> u64 {
    let mut map = StdMap::new();
    for at in &rows.order {
        map.insert(row(&rows.keys, KEY_BYTES, *at).to_vec(), row(&rows.texts, TEXT_BYTES, *at).to_vec());
    }
    map.len() as u64
}
