//! Keys, layouts and tables where memory is refused: the same call made again does its work.
use sm_ownership::Table;
use sm_ranges::{Key, KeyFault, Layout, LayoutFault};
use std::alloc::{AllocError, Global};
use std::process::Abort;

// A key of these bytes, made again where memory is refused.
fn key_in_two(rt: &impl Abort, alloc: Global, bytes: &[u8]) -> Key {
    match Key::new(alloc, bytes) {
        Ok(key) => key,
        Err(fault) => {
            assert!(*rt; fault == KeyFault::NoMemory);
            Key::new(alloc, bytes).ok().expect(rt, "the key")
        }
    }
}

fn key_cloned_in_two(rt: &impl Abort, alloc: Global, key: &Key) -> Key {
    match key.try_clone(alloc) {
        Ok(clone) => clone,
        Err(AllocError) => key.try_clone(alloc).ok().expect(rt, "the clone"),
    }
}

// A layout of two shards, made again where memory is refused.
fn layout_in_two(rt: &impl Abort, alloc: Global) -> Layout {
    match Layout::new(alloc, &[b"", b"m"]) {
        Ok(layout) => layout,
        Err(fault) => {
            assert!(*rt; fault == LayoutFault::NoMemory);
            Layout::new(alloc, &[b"", b"m"])
                .ok()
                .expect(rt, "the layout")
        }
    }
}

fn layout_cloned_in_two(rt: &impl Abort, alloc: Global, layout: &Layout) -> Layout {
    match layout.try_clone(alloc) {
        Ok(clone) => clone,
        Err(AllocError) => layout.try_clone(alloc).ok().expect(rt, "the clone"),
    }
}

fn table_in_two(rt: &impl Abort, alloc: Global) -> Table {
    match Table::new(alloc, 2, 3) {
        Ok(table) => table,
        Err(AllocError) => Table::new(alloc, 2, 3).ok().expect(rt, "the table"),
    }
}

// With each allocation refused in turn (`tools/run-tests` does it).
#[test]
fn refused_memory_changes_nothing(rt: HostRuntime) {
    let key = key_in_two(&rt, rt.alloc(), b"melon");
    let clone = key_cloned_in_two(&rt, rt.alloc(), &key);
    assert!(rt; key.as_bytes() == b"melon".as_slice() && clone.as_bytes() == b"melon".as_slice());
    let layout = layout_in_two(&rt, rt.alloc());
    let clone = layout_cloned_in_two(&rt, rt.alloc(), &layout);
    assert!(rt; layout.shard_of(b"melon").number() == 1 && clone.shard_of(b"melon").number() == 1);
    assert!(rt; table_in_two(&rt, rt.alloc()).count() == 2);
}
