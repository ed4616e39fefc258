use crate::{Reading, Revision};
use std::fmt;

/// A key that was written or deleted.
#[derive(Clone, Debug, PartialEq, Eq)]
pub struct KeyChange {
    /// The key.
    pub key: Vec<u8>,
    /// Its new value; nothing if it was deleted.
    pub value: Option<Vec<u8>>,
    /// The revision that did it.
    pub revision: Revision,
    /// The revision that created the key; [`Revision::NEVER`] if it was deleted.
    pub created: Revision,
}

/// An event of a watch.
#[derive(Clone, Debug, PartialEq, Eq)]
pub enum Seen {
    /// All keys with the prefix at one moment: first, and again if changes may have been missed.
    All(Reading),
    /// The changes after everything that was told before, in the order of their revisions, up to this revision.
    Changes(Revision, Vec<KeyChange>),
}

/// The callback for a watch's events, one call after another. It must not wait for the store.
pub type Watcher = Box<dyn FnMut(Seen) + Send>;

/// A watch that goes on until it is dropped.
#[must_use = "it ends when it is dropped"]
pub struct Watch {
    end: Option<Box<dyn FnOnce() + Send>>,
}

impl Watch {
    /// Makes a watch that calls this, once, when it is dropped: for [`Store::watch`](crate::Store::watch) of your own
    /// store.
    ///
    /// ```
    /// use durkenzo_store::Watch;
    /// use std::sync::mpsc;
    ///
    /// let (tell, told) = mpsc::channel();
    /// let watch = Watch::ended_by(move || drop(tell.send("ended")));
    /// assert!(told.try_recv().is_err());
    /// drop(watch);
    /// assert_eq!(told.recv(), Ok("ended"));
    /// ```
    pub fn ended_by(end: impl FnOnce() + Send + 'static) -> Watch {
        Watch {
            end: Some(Box::new(end)),
        }
    }
}

impl Drop for Watch {
    fn drop(&mut self) {
        if let Some(end) = self.end.take() {
            end();
        }
    }
}

impl fmt::Debug for Watch {
    fn fmt(&self, f: &mut fmt::Formatter<'_>) -> fmt::Result {
        f.debug_struct("Watch").finish_non_exhaustive()
    }
}
