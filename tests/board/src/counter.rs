use crate::answer::{Answer, answer_of};
use crate::ask::Ask;
use sm_ranges::ServerId;
use sm_ranges::key::Key;
use sm_service::{ApplyFault, Bytes, CounterText, Reply, Request, Service};
use std::alloc::Global;
use std::process::Abort;

/// The sample service, which is asked by plain bytes.
#[derive(Drop)]
pub(crate) struct Counter {
    alloc: Global,
    body: CounterText,
}

impl Counter {
    /// Nothing is kept yet, and at most so many requests ever.
    pub(crate) fn new(alloc: Global, limit: usize) -> Counter {
        Counter {
            alloc,
            body: CounterText::new(alloc, limit),
        }
    }

    /// Whether this is the answer to what is asked.
    pub(crate) fn answers(&mut self, ask: Ask<'_>, answer: Answer<'_>) -> bool {
        match ask.request(self.alloc) {
            Some(request) => answer_of(&applied(&mut self.body, request)) == answer,
            None => false,
        }
    }

    /// Asks one after another, and sees each answer.
    pub(crate) fn answers_all<R: Abort>(&mut self, rt: &R, cases: &[(Ask<'_>, Answer<'_>)]) {
        for (ask, answer) in cases {
            assert!(rt; self.answers(*ask, *answer), "{ask:?}");
        }
    }

    /// Whether the text is put at the key with its memory.
    pub(crate) fn puts(&mut self, key: &[u8], text: Bytes) -> bool {
        match Key::new(self.alloc, key) {
            Ok(key) => matches!(
                applied(&mut self.body, Request::Put(key, text)),
                Ok(Reply::Done)
            ),
            Err(_) => false,
        }
    }

    // The request, made again where memory is refused.
    fn request_in_two(&self, ask: Ask<'_>) -> Option<Request> {
        match ask.request(self.alloc) {
            Some(request) => Some(request),
            None => ask.request(self.alloc),
        }
    }

    /// Whether this is the answer. Where memory is refused, sees that nothing has changed and that the request came back, and
    /// applies that again.
    pub(crate) fn answers_in_two<R: Abort>(
        &mut self,
        rt: &R,
        ask: Ask<'_>,
        answer: Answer<'_>,
    ) -> bool {
        match self.request_in_two(ask) {
            Some(request) => answer_of(&self.applied_in_two(rt, request)) == answer,
            None => false,
        }
    }

    fn applied_in_two<R: Abort>(&mut self, rt: &R, request: Request) -> Result<Reply, ApplyFault> {
        let kept = self.body.kept();
        match self.body.apply(request) {
            Ok(reply) => Ok(reply),
            Err((back, fault)) => {
                assert!(rt; fault == ApplyFault::NoMemory);
                assert!(rt; self.body.kept() == kept);
                applied(&mut self.body, back)
            }
        }
    }

    /// Settles the body for the server, for which it moves into fresh memory where that isn't refused.
    pub(crate) fn settle(&mut self, server: ServerId) {
        self.body.settle(server);
    }

    /// How many requests are kept.
    pub(crate) fn kept(&self) -> usize {
        self.body.kept()
    }

    /// How many bytes are dead.
    pub(crate) fn dead(&self) -> u128 {
        self.body.machine().dead()
    }
}

// The service, as generic code sees it.
fn applied<S: Service>(service: &mut S, request: S::Request) -> Result<S::Reply, ApplyFault> {
    match service.apply(request) {
        Ok(reply) => Ok(reply),
        Err((_, fault)) => Err(fault),
    }
}
