use super::holds;
use super::numbers::Numbers;
use super::plain::Plain;
use super::step::{Step, rebuilt};
use sm_map::{ArenaMap, Val};
use std::alloc::Global;
use std::process::Abort;

// A map, and a plain list of the same rows.
#[derive(Drop)]
pub(crate) struct Twins {
    alloc: Global,
    map: ArenaMap,
    plain: Plain,
}

impl Twins {
    pub(crate) fn new(alloc: Global) -> Twins {
        Twins {
            alloc,
            map: ArenaMap::new(alloc),
            plain: Plain::new(alloc),
        }
    }

    // So many operations, after each of which both hold the same.
    pub(crate) fn operate(&mut self, rt: &impl Abort, numbers: &mut Numbers, count: u32) {
        for _ in 0..count {
            assert!(*rt; self.same_operation(rt, numbers));
            assert!(*rt; self.hold_same(rt));
        }
    }

    // With the map rebuilt, in which nothing is dead then.
    pub(crate) fn rebuilt(self, rt: &impl Abort) -> Twins {
        let Twins { alloc, map, plain } = self;
        let map = rebuilt(rt, map);
        assert!(*rt; map.dead() == 0);
        let twins = Twins { alloc, map, plain };
        assert!(*rt; twins.hold_same(rt));
        twins
    }

    // One operation on both, chosen by the numbers; tells whether both tell the same of it.
    fn same_operation(&mut self, rt: &impl Abort, numbers: &mut Numbers) -> bool {
        let (keys, texts) = (numbers.letters(), numbers.letters());
        let key = &keys[..numbers.below(4) as usize];
        let text = &texts[..numbers.below(10) as usize];
        match numbers.below(8) {
            0..3 => self.put(rt, key, Val::Text(text)),
            3 => self.put(rt, key, Val::Count(text.len() as i64)),
            4 | 5 => self.append(rt, key, text),
            6 => self.map.remove(key) == self.plain.remove(key),
            _ => self.scan(rt, key, text, 5),
        }
    }

    fn put(&mut self, rt: &impl Abort, key: &[u8], value: Val<'_>) -> bool {
        self.plain
            .put(self.alloc, key, value)
            .ok()
            .expect(rt, "memory");
        Step::Put(key, value).make(rt, &mut self.map)
    }

    fn append(&mut self, rt: &impl Abort, key: &[u8], tail: &[u8]) -> bool {
        let appended = self.plain.append(key, tail).ok().expect(rt, "memory");
        Step::Append(key, tail).make(rt, &mut self.map) == appended
    }

    fn scan(&self, rt: &impl Abort, low: &[u8], high: &[u8], max: usize) -> bool {
        let rows = self
            .plain
            .within(self.alloc, low, high, max)
            .ok()
            .expect(rt, "memory");
        let pairs = self.map.scan(low, high, max).ok().expect(rt, "memory");
        pairs.as_slice() == rows.as_slice()
    }

    fn hold_same(&self, rt: &impl Abort) -> bool {
        let rows = self
            .plain
            .within(self.alloc, b"", b"z", usize::MAX)
            .ok()
            .expect(rt, "memory");
        holds(&self.map, rows.as_slice())
    }
}
