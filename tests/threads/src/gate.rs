use sm_cluster::Gate;
use sm_ranges::server_id::ServerId;
use std::alloc::{AllocError, Global};
use std::sync::atomic::{AtomicU64, Ordering};
use std::sync::{Arc, Wait};

/// A gate that counts the requests which pass it, with all its clones.
#[derive(Drop)]
pub struct Counting {
    passed: Arc<AtomicU64>,
}

impl Counting {
    /// A gate that nothing has passed.
    pub fn new(alloc: Global) -> Result<Counting, AllocError> {
        Ok(Counting {
            passed: Arc::new(alloc, AtomicU64::new(0))?,
        })
    }

    /// How many requests have passed.
    pub fn passed(&self) -> u64 {
        self.passed.load(Ordering::SeqCst)
    }
}

impl Clone for Counting {
    fn clone(&self) -> Result<Counting, AllocError> {
        Ok(Counting {
            passed: Arc::try_clone(&self.passed)?,
        })
    }
}

impl Gate for Counting {
    fn pass<R: Wait>(&self, _rt: &R, _server: ServerId, _number: u64) {
        self.passed.fetch_add(1, Ordering::SeqCst);
    }
}
