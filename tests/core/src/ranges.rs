use sm_ranges::limits::{MAX_KEY, MAX_SERVER, MAX_SHARD, MAX_SHARDS};
use sm_ranges::order::compare;
use sm_ranges::{Key, KeyFault, Layout, LayoutFault, ServerId, ShardId, Stand};
use std::alloc::{AllocError, Global};
use std::cmp::Ordering;
use std::fmt::Display;
use std::process::Abort;
use std::test::Fail;

// The example of the crate's documentation.
#[test]
fn finds_the_shard_of_a_key(rt: HostRuntime) -> Result<(), Fail> {
    let layout = Layout::new(rt.alloc(), &[b"", b"m"])?;
    let k = layout.shard_of(b"melon");
    assert!(rt; k.number() == 1);
    assert!(rt; layout.covers(k, b"melon"));
    let (low, high) = layout.range(k);
    assert!(rt; low == b"m".as_slice());
    assert!(rt; high.is_none());
    Ok(())
}

// Whether a key of these bytes, and a clone of it, show them.
fn holds(rt: &impl Abort, alloc: Global, bytes: &[u8]) -> bool {
    let key = Key::new(alloc, bytes).ok().expect(rt, "a key");
    let clone = key.try_clone(alloc).ok().expect(rt, "memory");
    key.as_bytes() == bytes && clone.as_bytes() == bytes
}

#[test]
fn key_holds_its_bytes(rt: HostRuntime) {
    assert!(rt; holds(&rt, rt.alloc(), b"m\x00"));
    assert!(rt; holds(&rt, rt.alloc(), &[0xFF; MAX_KEY]));
}

#[test]
fn key_refuses_other_lengths(rt: HostRuntime) {
    let cases: [(&[u8], KeyFault); 2] = [(b"", KeyFault::Empty), (&[0; 256], KeyFault::TooLong)];
    for (bytes, fault) in &cases {
        assert!(rt; Key::new(rt.alloc(), bytes).err() == Some(*fault));
    }
}

#[test]
fn compares_keys(rt: HostRuntime) {
    let (longest, mut lower) = ([0x80; 255], [0x80; 255]);
    lower[254] = 0x7F;
    let cases: [(&[u8], &[u8], Ordering); 8] = [
        (b"", b"", Ordering::Equal),
        (b"", b"\x00", Ordering::Less),
        (b"b", b"ab", Ordering::Greater),
        (b"k\x7Fa", b"k\x80", Ordering::Less),
        (b"abcdefgh\x00", b"abcdefgh", Ordering::Greater),
        (b"abcdefg\x80ij", b"abcdefg\x7Fij", Ordering::Greater),
        (&lower, &longest, Ordering::Less),
        (&longest[..254], &longest, Ordering::Less),
    ];
    for (first, second, order) in &cases {
        assert!(rt; compare(first, second) == *order);
        assert!(rt; compare(second, first) == order.reverse());
    }
}

// What the server of this number says its number is.
fn server_number(number: u16) -> Option<u16> {
    Some(ServerId::new(number)?.number())
}

#[test]
fn servers_go_from_1_to_4095(rt: HostRuntime) {
    let cases = [(0, None), (1, Some(1)), (4095, Some(4095)), (4096, None)];
    for (number, found) in cases {
        assert!(rt; server_number(number) == found);
    }
}

// Whether the value is printed so.
fn is_printed<T: Display>(rt: &impl Abort, alloc: Global, value: &T, text: &str) -> bool {
    let printed = format!(in alloc; "{value}");
    printed.ok().expect(rt, "memory").as_str() == text
}

#[test]
fn servers_are_ordered_and_printed_by_their_numbers(rt: HostRuntime) {
    let last = ServerId::of(MAX_SERVER);
    assert!(rt; ServerId::of(1) < last);
    assert!(rt; is_printed(&rt, rt.alloc(), &last, "4095"));
}

// What the shard of this number says its number and its place are.
fn shard_number(number: u16) -> Option<(u16, usize)> {
    let k = ShardId::new(number)?;
    Some((k.number(), k.index()))
}

#[test]
fn shards_go_from_0_to_4095(rt: HostRuntime) {
    let cases = [
        (0, Some((0, 0))),
        (MAX_SHARD, Some((4095, MAX_SHARDS - 1))),
        (4096, None),
    ];
    for (number, found) in cases {
        assert!(rt; shard_number(number) == found);
    }
}

#[test]
fn shards_are_ordered_and_printed_by_their_numbers(rt: HostRuntime) {
    let first = ShardId::new(0).expect(&rt, "shard 0");
    let last = ShardId::new(MAX_SHARD).expect(&rt, "shard 4095");
    assert!(rt; first < last);
    assert!(rt; is_printed(&rt, rt.alloc(), &last, "4095"));
}

#[test]
fn stand_names_its_servers(rt: HostRuntime) {
    let (owner, other, third) = (ServerId::of(4095), ServerId::of(1), ServerId::of(2));
    let cases = [
        (Stand::Vacant, None, None),
        (Stand::Serving(owner), Some(owner), None),
        (
            Stand::Prepared { owner, next: other },
            Some(owner),
            Some(other),
        ),
        (
            Stand::Forwarding { owner, next: other },
            Some(owner),
            Some(other),
        ),
        (
            Stand::Taken {
                owner,
                previous: other,
            },
            Some(owner),
            Some(other),
        ),
        (Stand::Paused(owner), Some(owner), None),
    ];
    for (stand, named, second) in &cases {
        assert!(rt; stand.owner() == *named && stand.other() == *second);
        assert!(rt;
            stand.names(owner) == named.is_some() && stand.names(other) == second.is_some()
        );
        assert!(rt; !stand.names(third));
    }
}

// The layout of these bounds, and a clone of it.
fn layout_of(rt: &impl Abort, alloc: Global, bounds: &[&[u8]]) -> Layout {
    let layout = Layout::new(alloc, bounds).ok().expect(rt, "a layout");
    layout.try_clone(alloc).ok().expect(rt, "memory")
}

// The number of the shard of a key.
fn number_of(layout: &Layout, key: &[u8]) -> u16 {
    layout.shard_of(key).number()
}

// The range of the shard of a key.
fn range_of<'a>(layout: &'a Layout, key: &[u8]) -> (&'a [u8], Option<&'a [u8]>) {
    layout.range(layout.shard_of(key))
}

#[test]
fn layout_gives_each_key_its_shard(rt: HostRuntime) {
    let mut before_m = [0xFF; 255];
    before_m[0] = b'l';
    let cases: [(&[u8], u16); 6] = [
        (b"m", 1),
        (b"m\x00", 1),
        (&before_m, 0),
        (&[0xFF; 255], 1),
        (b"", 0),
        (&[b'l'; 300], 0),
    ];
    let layout = layout_of(&rt, rt.alloc(), &[b"", b"m"]);
    for (key, number) in &cases {
        assert!(rt; number_of(&layout, key) == *number);
    }
}

#[test]
fn layout_has_a_range_for_each_shard(rt: HostRuntime) {
    let cases: [(&[u8], &[u8], Option<&[u8]>); 2] = [(b"a", b"", Some(b"m")), (b"z", b"m", None)];
    let layout = layout_of(&rt, rt.alloc(), &[b"", b"m"]);
    assert!(rt; layout.count() == 2);
    for (key, low, high) in &cases {
        assert!(rt; range_of(&layout, key) == (*low, *high));
    }
}

#[test]
fn layout_names_the_first_fault(rt: HostRuntime) {
    let long: &[u8] = &[b'm'; 256];
    let cases: [(&[&[u8]], LayoutFault); 6] = [
        (&[], LayoutFault::Empty),
        (&[b"m"], LayoutFault::FirstNotEmpty),
        (&[b"", b"m", b"m"], LayoutFault::NotRising { at: 2 }),
        (&[b"", b"bb", b"b"], LayoutFault::NotRising { at: 2 }),
        (&[b"", b"a", long, b"z"], LayoutFault::KeyTooLong { at: 2 }),
        (&[b"", long, b"a"], LayoutFault::NotRising { at: 2 }),
    ];
    for (bounds, fault) in &cases {
        assert!(rt; Layout::new(rt.alloc(), bounds).err() == Some(*fault));
    }
}

// Bounds of 255 bytes, the first two of which are these.
fn bound_from(number: u16) -> [u8; 255] {
    let mut bound = [0xFF; 255];
    let [high, low] = number.to_be_bytes();
    bound[0] = high;
    bound[1] = low;
    bound
}

// The empty bound, and these after it.
fn bounds_of<'a>(alloc: Global, texts: &'a [[u8; 255]]) -> Result<Vec<&'a [u8]>, AllocError> {
    let mut bounds: Vec<&[u8]> = Vec::new(alloc);
    bounds.push(b"")?;
    for text in texts {
        bounds.push(text)?;
    }
    Ok(bounds)
}

// Each bound is the least key of its own shard, which ends at the next bound.
fn finds_each(rt: &impl Abort, layout: &Layout, bounds: &[&[u8]]) {
    for (at, bound) in bounds.iter().enumerate() {
        let next = bounds.get(at.saturating_add(1)).copied();
        assert!(rt; layout.shard_of(bound).index() == at);
        assert!(rt; range_of(layout, bound) == (*bound, next));
    }
}

// With how many bounds a key is compared: `shard_of` looks for a key by this search.
fn comparisons(bounds: &[&[u8]], key: &[u8]) -> u32 {
    let mut compared = 0u32;
    let _ = bounds.partition_point(|bound| {
        compared = compared.wrapping_add(1);
        *bound <= key
    });
    compared
}

// A layout of 4,096 bounds finds each.
fn holds_as_many_as_may_be(rt: &impl Abort, alloc: Global, bounds: &[&[u8]]) {
    let layout = layout_of(rt, alloc, bounds);
    assert!(rt; layout.count() == MAX_SHARDS);
    finds_each(rt, &layout, bounds);
    assert!(rt; comparisons(bounds, b"m") == 13);
}

fn all_texts(alloc: Global) -> Result<Vec<[u8; 255]>, AllocError> {
    (0..4096u16).map(bound_from).collect(alloc)
}

#[test]
fn layout_has_at_most_4096_bounds(rt: HostRuntime) {
    let texts = all_texts(rt.alloc()).ok().expect(&rt, "memory");
    let mut bounds = bounds_of(rt.alloc(), &texts).ok().expect(&rt, "memory");
    assert!(rt; Layout::new(rt.alloc(), &bounds).err() == Some(LayoutFault::TooMany));
    let _ = bounds.pop();
    holds_as_many_as_may_be(&rt, rt.alloc(), &bounds);
}

#[test]
fn layout_fault_prints_the_place(rt: HostRuntime) {
    let fault = LayoutFault::NotRising { at: 2 };
    let text = "bound 2 is not above the one before it";
    assert!(rt; is_printed(&rt, rt.alloc(), &fault, text));
}
