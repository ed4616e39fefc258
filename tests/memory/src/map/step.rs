use sm_map::{ArenaMap, Val};
use std::alloc::AllocError;
use std::process::Abort;

// What is done to a map.
#[derive(Clone, Copy)]
pub(crate) enum Step<'a> {
    Put(&'a [u8], Val<'a>),
    Append(&'a [u8], &'a [u8]),
    Remove(&'a [u8]),
}

impl Step<'_> {
    // Does it, and tells whether it found what it needs: for `Append` a text, for `Remove` the key.
    pub(crate) fn try_on(&self, map: &mut ArenaMap) -> Result<bool, AllocError> {
        match *self {
            Step::Put(key, value) => {
                map.put(key, value)?;
                Ok(true)
            }
            Step::Append(key, tail) => append(map, key, tail),
            Step::Remove(key) => Ok(map.remove(key)),
        }
    }

    // Does it where there is memory.
    pub(crate) fn make(&self, rt: &impl Abort, map: &mut ArenaMap) -> bool {
        self.try_on(map).ok().expect(rt, "memory")
    }
}

// Appends to the text of the key, where it holds one.
fn append(map: &mut ArenaMap, key: &[u8], tail: &[u8]) -> Result<bool, AllocError> {
    if let Some(Val::Text(_)) = map.get(key) {
        map.append(key, tail)?;
        return Ok(true);
    }
    Ok(false)
}

// Does the steps, each of which finds what it needs.
pub(crate) fn make_all(rt: &impl Abort, map: &mut ArenaMap, steps: &[Step<'_>]) {
    for step in steps {
        assert!(*rt; step.make(rt, map));
    }
}

pub(crate) fn rebuilt(rt: &impl Abort, map: ArenaMap) -> ArenaMap {
    map.rebuild().ok().expect(rt, "memory")
}
