//! The sample service, whose first checkpoint is refused memory.
use sm_ranges::server_id::ServerId;
use sm_service::{ApplyFault, CounterText, Reply, Request, Service};
use std::alloc::{AllocError, Global};
use std::marker::Model;

/// A body of the sample service that refuses its first checkpoint, and makes the others.
#[derive(Drop)]
pub struct Refusing {
    body: CounterText,
    is_refusing: bool,
}

impl Model for Refusing {
    ghost use Rattle.sm_service.specs.Service.{TextLog};

    ghost Value = { TextLog };

    ghost view = { λ refusing. refusing.body };
}

impl Refusing {
    ghost use Rattle.std.specs.Prelude.{◌≡◌, []};

    /// A body that has applied nothing, and keeps at most so many requests.
    pub fn new(alloc: Global, limit: usize) -> Refusing
        ensures base { result.base ≡ [] }
        ensures before { result.before ≡ 0 }
        ensures empty { result.requests ≡ [] }
    {
        Refusing {
            body: CounterText::new(alloc, limit),
            is_refusing: true,
        }
    }
}

impl Service for Refusing {
    ghost use Rattle.std.specs.Prelude.{[], List};
    ghost use Rattle.sm_map.specs.KeyMap.{KeyPair};
    ghost use Rattle.sm_service.specs.Service.{after, key_of_request, reply};

    type Request = Request;

    type Reply = Reply;

    ghost State = { List KeyPair };

    ghost initial = { [] };

    ghost next = { after };

    ghost answer = { reply };

    ghost key_of = { key_of_request };

    ghost base = { λ refusing. refusing.base };

    ghost before = { λ refusing. refusing.before };

    ghost requests = { λ refusing. refusing.requests };

    ghost limit = { λ refusing. refusing.limit };

    fn key(request: &Request) -> &[u8] {
        CounterText::key(request)
    }

    fn kept(&self) -> usize {
        self.body.kept()
    }

    fn first(&self) -> u64 {
        self.body.first()
    }

    fn apply(&mut self, request: Request) -> Result<Reply, (Request, ApplyFault)> {
        self.body.apply(request)
    }

    fn settle(&mut self, server: ServerId) {
        self.body.settle(server);
    }

    fn checkpoint(&mut self) -> Result<(), AllocError> {
        if self.is_refusing {
            self.is_refusing = false;
            return Err(AllocError);
        }
        self.body.checkpoint()
    }
}
