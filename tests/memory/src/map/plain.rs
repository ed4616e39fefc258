use sm_map::Val;
use std::alloc::{AllocError, Global};

// What a row holds: a text, or a count.
#[derive(Drop)]
enum Held {
    Text(Vec<u8>),
    Count(i64),
}

impl Held {
    fn of(alloc: Global, value: Val<'_>) -> Result<Held, AllocError> {
        match value {
            Val::Text(text) => Ok(Held::Text(Vec::from_slice(alloc, text)?)),
            Val::Count(count) => Ok(Held::Count(count)),
        }
    }

    fn value(&self) -> Val<'_> {
        match self {
            Held::Text(text) => Val::Text(text),
            Held::Count(count) => Val::Count(*count),
        }
    }
}

// A plain list of rows in the order of their keys, which each operation goes through from its begin.
#[derive(Drop)]
pub(crate) struct Plain {
    rows: Vec<(Vec<u8>, Held)>,
}

impl Plain {
    pub(crate) fn new(alloc: Global) -> Plain {
        Plain {
            rows: Vec::new(alloc),
        }
    }

    pub(crate) fn within(
        &self,
        alloc: Global,
        low: &[u8],
        high: &[u8],
        max: usize,
    ) -> Result<Vec<(&[u8], Val<'_>)>, AllocError> {
        let mut seen = Vec::new(alloc);
        for (key, held) in &self.rows {
            if seen.len() < max && key.as_slice() >= low && key.as_slice() < high {
                seen.push((key.as_slice(), held.value()))?;
            }
        }
        Ok(seen)
    }

    pub(crate) fn remove(&mut self, key: &[u8]) -> bool {
        let before = self.rows.len();
        self.rows.retain(|row| row.0.as_slice() != key);
        self.rows.len() < before
    }

    pub(crate) fn put(
        &mut self,
        alloc: Global,
        key: &[u8],
        value: Val<'_>,
    ) -> Result<(), AllocError> {
        self.remove(key);
        let below = self
            .rows
            .iter()
            .filter(|row| row.0.as_slice() < key)
            .count();
        let at = below.min(self.rows.len());
        let row = (Vec::from_slice(alloc, key)?, Held::of(alloc, value)?);
        self.rows.insert(at, row)?;
        Ok(())
    }

    pub(crate) fn append(&mut self, key: &[u8], tail: &[u8]) -> Result<bool, AllocError> {
        for row in self.rows.iter_mut() {
            if row.0.as_slice() == key {
                if let Held::Text(text) = &mut row.1 {
                    text.extend_from_slice(tail)?;
                    return Ok(true);
                }
            }
        }
        Ok(false)
    }
}
