ghost use Rattle.std.specs.Prelude.{◌≡◌, ◌+◌, []};

use sm_body::service::{ApplyFault, Service};
use sm_ranges::server_id::ServerId;
use sm_trace::trace::Trace;
use std::alloc::AllocError;
use std::marker::Model;

/// A body that counts its requests, which say nothing. It makes no checkpoint.
#[derive(Drop)]
pub(crate) struct Tally {
    count: usize,
    requests: Trace<()>,
}

impl Model for Tally {
    ghost use Rattle.std.specs.Prelude.{◌≡◌, ◌+◌, List, fold, length};

    ghost Value = { List (Unit {0}) };

    ghost view = { λ tally. tally.requests.items };

    ghost invariant = { λ tally. (tally.count ≡ fold (λ count request. count + 1) 0 tally.requests.items)
        × (tally.count ≡ length tally.requests.items) };
}

impl Tally {
    pub(crate) fn new() -> Tally
        ensures { result ≡ [] }
    {
        Tally {
            count: 0,
            requests: Trace::empty(),
        }
    }
}

impl Service for Tally {
    ghost use Rattle.std.specs.Prelude.{ℕ};

    type Request = ();

    type Reply = usize;

    ghost State = { ℕ };

    ghost initial = { 0 };

    ghost next = { λ count request. count + 1 };

    ghost answer = { λ count request. count + 1 };

    ghost key_of = { λ request. [] };

    ghost base = { λ body. 0 };

    ghost before = { λ body. 0 };

    ghost requests = { λ body. body };

    ghost limit = { λ body. 18446744073709551615 };

    fn key(_: &()) -> &[u8] {
        &[]
    }

    fn kept(&self) -> usize {
        self.count
    }

    fn first(&self) -> u64 {
        0
    }

    fn apply(&mut self, request: ()) -> Result<usize, ((), ApplyFault)> {
        if self.count == usize::MAX {
            return Err((request, ApplyFault::KeptFull));
        }
        self.requests.push(&request);
        self.count += 1;
        Ok(self.count)
    }

    fn settle(&mut self, _: ServerId) {}

    fn checkpoint(&mut self) -> Result<(), AllocError> {
        Err(AllocError)
    }
}
