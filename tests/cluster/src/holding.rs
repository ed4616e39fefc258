//! The sample service, whose requests may have to stay at a latch while they are applied, or whose first checkpoint is refused memory.
use crate::latch::Latch;
use sm_ranges::server_id::ServerId;
use sm_service::{ApplyFault, CounterText, Reply, Request, Service};
use std::alloc::{AllocError, Global};
use std::marker::Model;
use std::sync::Arc;

/// A body of the sample service. Where it has a latch, each request stays there while it is applied. Where it is refusing, it refuses
/// its first checkpoint, and makes the others.
#[derive(Drop)]
pub(crate) struct Holding {
    body: CounterText,
    latch: Option<Arc<Latch>>,
    is_refusing: bool,
}

impl Model for Holding {
    ghost use Rattle.sm_service.specs.Service.{TextLog};

    ghost Value = { TextLog };

    ghost view = { λ holding. holding.body };
}

impl Holding {
    ghost use Rattle.std.specs.Prelude.{◌≡◌, []};

    /// A body that has applied nothing, and keeps at most so many requests.
    pub(crate) fn new(alloc: Global, limit: usize, latch: Option<Arc<Latch>>) -> Holding
        ensures base { result.base ≡ [] }
        ensures before { result.before ≡ 0 }
        ensures empty { result.requests ≡ [] }
    {
        Holding {
            body: CounterText::new(alloc, limit),
            latch,
            is_refusing: false,
        }
    }

    /// The same without a latch, which refuses its first checkpoint.
    pub(crate) fn refusing(alloc: Global, limit: usize) -> Holding
        ensures base { result.base ≡ [] }
        ensures before { result.before ≡ 0 }
        ensures empty { result.requests ≡ [] }
    {
        Holding {
            body: CounterText::new(alloc, limit),
            latch: None,
            is_refusing: true,
        }
    }
}

impl Service for Holding {
    ghost use Rattle.std.specs.Prelude.{[], List};
    ghost use Rattle.sm_map.specs.KeyMap.{KeyPair};
    ghost use Rattle.sm_service.specs.Service.{after, key_of_request, reply};

    type Request = Request;

    type Reply = Reply;

    ghost State = { List KeyPair };

    ghost initial = { [] };

    ghost next = { after };

    ghost answer = { reply };

    ghost key_of = { key_of_request };

    ghost base = { λ holding. holding.base };

    ghost before = { λ holding. holding.before };

    ghost requests = { λ holding. holding.requests };

    ghost limit = { λ holding. holding.limit };

    fn key(request: &Request) -> &[u8] {
        CounterText::key(request)
    }

    fn kept(&self) -> usize {
        self.body.kept()
    }

    fn first(&self) -> u64 {
        self.body.first()
    }

    fn apply(&mut self, request: Request) -> Result<Reply, (Request, ApplyFault)> {
        if let Some(latch) = &self.latch {
            latch.stay();
        }
        self.body.apply(request)
    }

    fn settle(&mut self, server: ServerId) {
        self.body.settle(server);
    }

    fn checkpoint(&mut self) -> Result<(), AllocError> {
        if self.is_refusing {
            self.is_refusing = false;
            return Err(AllocError);
        }
        self.body.checkpoint()
    }
}
