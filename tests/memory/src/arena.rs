mod shelf;

use shelf::{Shelf, is_joined};
use sm_arena::Arena;
use std::alloc::{AllocError, Global};
use std::process::Abort;
use std::test::Fail;
use std::thread;

// So many bytes that count up and round from `first` on.
fn bytes_from(alloc: Global, first: u8, count: usize) -> Result<Vec<u8>, AllocError> {
    let mut bytes = Vec::with_capacity(alloc, count)?;
    let mut next = first;
    for _ in 0..count {
        bytes.push(next)?;
        next = next.wrapping_add(1);
    }
    Ok(bytes)
}

// The same, where there is memory.
fn bytes(rt: &impl Abort, alloc: Global, first: u8, count: usize) -> Vec<u8> {
    bytes_from(alloc, first, count).ok().expect(rt, "memory")
}

fn new_shelf(rt: &impl Abort, alloc: Global, piece: &[u8]) -> Shelf {
    Shelf::new(alloc, piece).ok().expect(rt, "memory")
}

#[test]
#[tactic(auto, using(sm_arena::specs::lemmas::Placing::placed_now, sm_arena::specs::lemmas::Placing::placed_later, sm_arena::specs::lemmas::Placing::placed_after))]
fn arena_and_rebuild(rt: HostRuntime) -> Result<(), Fail> {
    let mut arena = Arena::new(rt.alloc());
    let s = arena.place(b"abc")?;
    let t = arena.place(b"")?;
    assert_eq!(rt; arena.bytes(), 3);
    assert_eq!(rt; arena.dead(), 0);
    arena.forget(s);
    assert_eq!(rt; arena.bytes(), 0);
    assert_eq!(rt; arena.dead(), 3);
    assert_eq!(rt; arena.get(s), b"abc".as_slice());
    assert!(rt; arena.get(t).is_empty());
    Ok(())
}

#[test]
#[tactic(auto, using(sm_arena::specs::lemmas::Placing::placed_now, sm_arena::specs::lemmas::Placing::placed_after))]
fn empty_piece_is_never_dead(rt: HostRuntime) {
    let mut arena = Arena::new(rt.alloc());
    let t = arena.place(b"").ok().expect(&rt, "memory");
    arena.forget(t);
    assert!(rt; arena.bytes() == 0 && arena.dead() == 0);
    assert!(rt; arena.get(t).is_empty());
}

// Places 1,000 further pieces, of 0 to 999 of these bytes.
fn place_further(shelf: &mut Shelf, bytes: &[u8]) -> Result<(), AllocError> {
    for count in 0..1_000 {
        shelf.place_further(bytes.get(..count).unwrap_or(b""))?;
    }
    Ok(())
}

// Places the piece and then further ones, and tells whether it still reads the same.
fn reads_back(shelf: &mut Shelf, piece: &[u8], further: &[u8]) -> bool {
    shelf.place(piece).is_ok() && place_further(shelf, further).is_ok() && shelf.last() == piece
}

// The longest piece has a mebibyte.
fn read_back_each(rt: &impl Abort, alloc: Global, shelf: &mut Shelf) {
    let further = bytes(rt, alloc, 7, 1_000);
    for count in [0, 1, 65_535, 65_536, 65_537, 1_048_576] {
        let piece = bytes(rt, alloc, 10, count);
        assert!(*rt; reads_back(shelf, &piece, &further));
    }
}

#[test]
fn lengths_round_a_chunk_read_back(rt: HostRuntime) {
    let mut shelf = new_shelf(&rt, rt.alloc(), b"");
    read_back_each(&rt, rt.alloc(), &mut shelf);
    assert!(rt; shelf.bytes() == 1_245_185 + 6 * 499_500);
}

// Places so many bytes, and tells how many the arena then holds.
fn held_with(rt: &impl Abort, alloc: Global, arena: &mut Arena, count: usize) -> u128 {
    let piece = bytes(rt, alloc, 1, count);
    assert!(*rt; arena.place(&piece).is_ok());
    arena.held()
}

// The first chunk has 1,024 bytes, each next one twice as many, and a longer piece has one of its own.
#[test]
fn chunks_grow(rt: HostRuntime) {
    let mut arena = Arena::new(rt.alloc());
    assert!(rt; arena.held() == 0);
    assert!(rt; held_with(&rt, rt.alloc(), &mut arena, 1) == 1_024);
    assert!(rt; held_with(&rt, rt.alloc(), &mut arena, 1_024) == 3_072);
}

// A piece of 5,000 bytes takes a chunk of 8,192, and one of 70,000 leaves the next chunk's size as it was.
#[test]
fn chunks_skip_sizes_and_stop_growing(rt: HostRuntime) {
    let mut arena = Arena::new(rt.alloc());
    for (count, held) in [
        (5_000, 8_192),
        (70_000, 78_192),
        (16_384, 94_576),
        (40_000, 160_112),
        (30_000, 225_648),
        (35_000, 225_648),
        (65_536, 291_184),
    ] {
        assert!(rt; held_with(&rt, rt.alloc(), &mut arena, count) == held);
    }
}

// Places both pieces, and tells whether they read the same.
fn pair_reads_back(shelf: &mut Shelf, first: &[u8], second: &[u8]) -> bool {
    match shelf.place_pair(first, second) {
        Ok(first_reads) => first_reads && shelf.last() == second,
        Err(_) => false,
    }
}

fn pairs_read(shelf: &mut Shelf) -> bool {
    pair_reads_back(shelf, b"key", b"text")
        && pair_reads_back(shelf, b"k", b"")
        && pair_reads_back(shelf, b"", b"")
        && shelf.bytes() == 3 + 4 + 1
}

#[test]
fn pairs_read_back(rt: HostRuntime) {
    let mut shelf = new_shelf(&rt, rt.alloc(), b"");
    assert!(rt; pairs_read(&mut shelf));
}

// Places the head and the head followed by the tail, and tells whether both read so.
fn joins(shelf: &mut Shelf, head: &[u8], tail: &[u8]) -> bool {
    if shelf.place(head).is_err() {
        return false;
    }
    match shelf.lengthen(tail) {
        Ok(both_read) => both_read && is_joined(shelf.last(), head, tail),
        Err(_) => false,
    }
}

// Joins short pieces, also empty ones.
fn joins_short(shelf: &mut Shelf) -> bool {
    joins(shelf, b"abc", b"def")
        && joins(shelf, b"abc", b"")
        && joins(shelf, b"", b"def")
        && joins(shelf, b"", b"")
        && shelf.bytes() == 3 + 6 + 3 + 3 + 3
}

// The long joined piece has a chunk of its own.
fn joins_long(rt: &impl Abort, alloc: Global, shelf: &mut Shelf) {
    let long = bytes(rt, alloc, 5, 40_000);
    let rest = bytes(rt, alloc, 69, 30_000);
    assert!(*rt; joins(shelf, &long, &rest));
}

#[test]
fn joined_pieces_read_back(rt: HostRuntime) {
    let mut shelf = new_shelf(&rt, rt.alloc(), b"");
    assert!(rt; joins_short(&mut shelf));
    joins_long(&rt, rt.alloc(), &mut shelf);
    assert!(rt; shelf.bytes() == 18 + 40_000 + 70_000);
}

// Joins both pieces, and places the short ones beside, and tells whether all read the same.
fn joins_memory(shelf: &mut Shelf, first: Vec<u8>, second: Vec<u8>, long: &[u8]) -> bool {
    shelf.join(first).is_ok()
        && shelf.last() == long
        && matches!(shelf.join_and_place(second, b"key"), Ok(true))
        && shelf.last() == long
        && shelf.first() == b"abc".as_slice()
}

// A piece that joins has its own memory, and short pieces go on where they were.
#[test]
fn memory_joins(rt: HostRuntime) {
    let mut shelf = new_shelf(&rt, rt.alloc(), b"abc");
    let long = bytes(&rt, rt.alloc(), 3, 5_000);
    let first = bytes(&rt, rt.alloc(), 3, 5_000);
    let second = bytes(&rt, rt.alloc(), 3, 5_000);
    assert!(rt; joins_memory(&mut shelf, first, second, &long));
    assert!(rt; shelf.bytes() == 3 + 5_000 + 5_000 + 3 && shelf.held() == 1_024 + 10_000);
}

// So many bytes, with room for more behind them.
fn roomy(rt: &impl Abort, alloc: Global, count: usize, capacity: usize) -> Vec<u8> {
    let mut roomy = Vec::with_capacity(alloc, capacity)
        .ok()
        .expect(rt, "memory");
    let piece = bytes(rt, alloc, 3, count);
    assert!(*rt; roomy.extend_from_slice(&piece).is_ok());
    roomy
}

// What joins is held with its spare room, into which nothing is written.
#[test]
fn spare_room_of_joined_memory_is_held(rt: HostRuntime) {
    let mut shelf = new_shelf(&rt, rt.alloc(), b"abc");
    let long = bytes(&rt, rt.alloc(), 3, 5_000);
    let piece = roomy(&rt, rt.alloc(), 5_000, 9_000);
    assert!(rt; shelf.join(piece).is_ok() && shelf.held() == 1_024 + 9_000);
    assert!(rt; shelf.place_further(b"short").is_ok() && shelf.held() == 1_024 + 9_000);
    assert!(rt; shelf.place_further(&long).is_ok() && shelf.held() == 1_024 + 9_000 + 8_192);
    assert!(rt; shelf.last() == long.as_slice() && shelf.first() == b"abc".as_slice());
}

// Joins the one piece and places the other, and tells how many bytes the arena then holds.
fn held_with_both(arena: &mut Arena, joined: Vec<u8>, placed: &[u8]) -> Option<u128> {
    match arena.join_and_place(joined, placed) {
        Ok(_) => Some(arena.held()),
        Err(_) => None,
    }
}

// The chunks that the arena makes have the sizes that they had if nothing had joined.
#[test]
fn joined_memory_changes_no_size(rt: HostRuntime) {
    let mut arena = Arena::new(rt.alloc());
    let first = bytes(&rt, rt.alloc(), 3, 33_000);
    let second = bytes(&rt, rt.alloc(), 5, 33_000);
    assert!(rt; arena.join(first).is_ok() && arena.held() == 33_000);
    assert!(rt; held_with_both(&mut arena, second, b"key") == Some(66_000 + 1_024));
    assert!(rt; held_with(&rt, rt.alloc(), &mut arena, 1_024) == 66_000 + 1_024 + 2_048);
}

// Whether the shelf, which is dropped here, has these pieces first and last.
fn ends_with(shelf: Shelf, first: &[u8], last: &[u8]) -> bool {
    shelf.first() == first && shelf.last() == last
}

#[test]
fn arena_goes_to_a_thread(rt: HostRuntime) {
    let long = bytes(&rt, rt.alloc(), 3, 70_000);
    let mut shelf = new_shelf(&rt, rt.alloc(), b"abc");
    assert!(rt; shelf.place(&long).is_ok());
    let other = new_shelf(&rt, rt.alloc(), b"there");
    let (first, second) = thread::join(
        &rt,
        move || ends_with(shelf, b"abc", &long),
        move || ends_with(other, b"there", b"there"),
    );
    assert!(rt; first && second);
}

// Two threads read one arena at once.
#[test]
fn threads_share_an_arena(rt: HostRuntime) {
    let long = bytes(&rt, rt.alloc(), 3, 70_000);
    let mut shelf = new_shelf(&rt, rt.alloc(), b"abc");
    assert!(rt; shelf.place(&long).is_ok());
    let (first, second) = thread::join(
        &rt,
        || shelf.first() == b"abc".as_slice(),
        || shelf.last() == long.as_slice(),
    );
    assert!(rt; first && second);
}

// Places the piece, or finds the arena as it was.
fn place_or_nothing(shelf: &mut Shelf, piece: &[u8]) -> bool {
    let before = shelf.bytes();
    match shelf.place(piece) {
        Ok(()) => {
            shelf.last() == piece && shelf.bytes() == before.wrapping_add(piece.len() as u128)
        }
        Err(AllocError) => shelf.bytes() == before,
    }
}

// Places the last piece with a further byte, or finds the arena as it was.
fn lengthen_or_nothing(shelf: &mut Shelf) -> bool {
    let before = shelf.bytes();
    match shelf.lengthen(b"!") {
        Ok(both_read) => both_read && shelf.bytes() > before,
        Err(AllocError) => shelf.bytes() == before,
    }
}

// Places both pieces, or finds the arena as it was.
fn pair_or_nothing(shelf: &mut Shelf, first: &[u8], second: &[u8]) -> bool {
    let before = shelf.bytes();
    match shelf.place_pair(first, second) {
        Ok(first_reads) => first_reads && shelf.last() == second && shelf.bytes() > before,
        Err(AllocError) => shelf.bytes() == before,
    }
}

// Joins the piece and places a key, or hands the piece back and finds the arena as it was.
fn join_or_nothing(shelf: &mut Shelf, alloc: Global, piece: &[u8]) -> bool {
    let Ok(copy) = Vec::from_slice(alloc, piece) else {
        return true;
    };
    let before = shelf.bytes();
    match shelf.join_and_place(copy, b"key") {
        Ok(key_reads) => key_reads && shelf.last() == piece && shelf.bytes() > before,
        Err((copy, AllocError)) => copy.as_slice() == piece && shelf.bytes() == before,
    }
}

// Does each of these once. What was placed first still reads the same, and nothing is dead.
fn all_or_nothing(shelf: &mut Shelf, alloc: Global, short: &[u8], long: &[u8]) -> bool {
    place_or_nothing(shelf, short)
        && join_or_nothing(shelf, alloc, long)
        && place_or_nothing(shelf, b"")
        && place_or_nothing(shelf, long)
        && lengthen_or_nothing(shelf)
        && pair_or_nothing(shelf, short, long)
        && shelf.first() == b"first".as_slice()
        && shelf.dead() == 0
}

// Does so twice, which takes some nine chunks, so that the list of them grows twice.
fn each_all_or_nothing(shelf: &mut Shelf, alloc: Global, short: &[u8], long: &[u8]) -> bool {
    for _ in 0..2 {
        if !all_or_nothing(shelf, alloc, short, long) {
            return false;
        }
    }
    true
}

// Passes with each allocation refused in turn (`tools/run-tests` does it).
#[test]
fn refused_memory_changes_nothing(rt: HostRuntime) {
    // No two of the short pieces fit into a chunk, and the long one has a chunk of its own.
    let Ok(short) = bytes_from(rt.alloc(), 1, 33_000) else {
        return;
    };
    let Ok(long) = bytes_from(rt.alloc(), 2, 66_000) else {
        return;
    };
    if let Ok(mut shelf) = Shelf::new(rt.alloc(), b"first") {
        assert!(rt; each_all_or_nothing(&mut shelf, rt.alloc(), &short, &long));
    }
}
