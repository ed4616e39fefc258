//! The proved runs of bench_map of crate/.

use crate::Rows;

unsafe extern "C" {
    fn bench_map_place(piece: *const u8, length: usize, count: usize) -> u64;
    fn bench_map_get(keys: *const u8, keys_length: usize, texts: *const u8, texts_length: usize, order: *const u32, turns: usize) -> u64;
    fn bench_map_put(
        keys: *const u8, keys_length: usize, texts: *const u8, texts_length: usize, order: *const u32, turns: usize, most_dead: u64,
    ) -> u64;
    fn bench_map_given(key: *const u8, key_length: usize, text: *const u8, text_length: usize, count: usize) -> u64;
    fn bench_map_append(keys: *const u8, keys_length: usize, texts: *const u8, texts_length: usize, order: *const u32, turns: usize) -> u64;
    fn bench_map_scan(keys: *const u8, keys_length: usize, texts: *const u8, texts_length: usize, order: *const u32, turns: usize) -> u64;
    fn bench_map_rebuild(keys: *const u8, keys_length: usize, texts: *const u8, texts_length: usize, order: *const u32, turns: usize) -> u64;
    fn bench_map_insert(keys: *const u8, keys_length: usize, texts: *const u8, texts_length: usize, order: *const u32, turns: usize) -> u64;
}

type ProvedRun = unsafe extern "C" fn(*const u8, usize, *const u8, usize, *const u32, usize) -> u64;

fn done(run: ProvedRun, rows: &Rows) -> u64 {
    let Rows { keys, texts, order } = rows;
    // The runs read these slices and keep nothing of them.
    unsafe { run(keys.as_ptr(), keys.len(), texts.as_ptr(), texts.len(), order.as_ptr(), order.len()) }
}

fn done_with_most_dead(rows: &Rows, most_dead: u64) -> u64 {
    let Rows { keys, texts, order } = rows;
    unsafe { bench_map_put(keys.as_ptr(), keys.len(), texts.as_ptr(), texts.len(), order.as_ptr(), order.len(), most_dead) }
}

pub fn place(piece: &[u8], count: usize) -> u64 {
    unsafe { bench_map_place(piece.as_ptr(), piece.len(), count) }
}

pub fn get(rows: &Rows) -> u64 {
    done(bench_map_get, rows)
}

/// Never rebuilds.
pub fn put(rows: &Rows) -> u64 {
    done_with_most_dead(rows, u64::MAX)
}

/// Rebuilds where more bytes are dead than live.
pub fn put_and_rebuild(rows: &Rows) -> u64 {
    done_with_most_dead(rows, (rows.keys.len() + rows.texts.len()) as u64)
}

pub fn given(key: &[u8], text: &[u8], count: usize) -> u64 {
    unsafe { bench_map_given(key.as_ptr(), key.len(), text.as_ptr(), text.len(), count) }
}

pub fn append(rows: &Rows) -> u64 {
    done(bench_map_append, rows)
}

pub fn scan(rows: &Rows) -> u64 {
    done(bench_map_scan, rows)
}

pub fn rebuild(rows: &Rows) -> u64 {
    done(bench_map_rebuild, rows)
}

pub fn insert(rows: &Rows) -> u64 {
    done(bench_map_insert, rows)
}
