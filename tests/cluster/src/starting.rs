//! Starts that are refused part way.
use crate::latch::{Holds, Latch};
use crate::running::{bodies_of, setup_of};
use sm_cluster::{Cluster, StartFault};
use std::alloc::{AllocError, Global};
use std::process::Abort;
use std::sync::atomic::{AtomicU32, Ordering};
use std::sync::{Arc, Wait};
use std::test::Fail;
use std::thread::Threads;

/// What may be cloned so many times, as a part of a runtime.
#[derive(Drop)]
struct Clones {
    left: Arc<AtomicU32>,
}

impl Clone for Clones {
    fn clone(&self) -> Result<Clones, AllocError> {
        let left = self.left.load(Ordering::SeqCst);
        if left == 0 {
            return Err(AllocError);
        }
        self.left.store(left - 1, Ordering::SeqCst);
        Ok(Clones {
            left: Arc::try_clone(&self.left)?,
        })
    }
}

// Why a runtime that may be cloned so many times starts no cluster; none where it starts one, which is stopped again. Nobody has
// the gate then.
fn start_fault<R: Threads + Wait + Abort + Clone + Send + Drop + 'static>(
    rt: &R,
    alloc: Global,
    clones: u32,
) -> Result<Option<StartFault>, Fail> {
    let latch = Arc::new(alloc, Latch::new())?;
    let gate = Holds {
        number: 0,
        latch: Arc::try_clone(&latch)?,
    };
    let left = Arc::new(alloc, AtomicU32::new(clones))?;
    let counted = (rt.clone()?, Clones { left });
    let bodies = bodies_of(alloc, 1, None)?;
    let fault = match Cluster::start(&counted, alloc, setup_of(alloc)?, bodies, 2, 1, gate) {
        Ok((cluster, clients)) => {
            assert!(rt; cluster.stop(rt, clients).is_ok());
            None
        }
        Err(fault) => Some(fault),
    };
    assert!(rt; Arc::try_unwrap(latch).is_ok());
    Ok(fault)
}

// Six workers are started, each with a runtime of its own. Where one isn't to be had, those before it are stopped and joined.
#[test]
fn start_is_refused_part_way(rt: HostRuntime) -> Result<(), Fail> {
    let alloc = rt.alloc();
    assert!(rt; start_fault(&rt, alloc, 0)? == Some(StartFault::NoMemory));
    assert!(rt; start_fault(&rt, alloc, 5)? == Some(StartFault::NoMemory));
    assert!(rt; start_fault(&rt, alloc, 6)? == None);
    Ok(())
}
