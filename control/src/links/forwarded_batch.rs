use super::frame::Frame;
use super::ReturnedRequests;
use super::{
    Destination, ForwardedMessage, ForwardedRequest, Host, Reason, RequestBatch, RequestOutcome,
};
use durkenzo_store::Revision;
use std::time::{Duration, Instant};

/// The most bytes of a frame of requests besides the requests, and how many each request has besides its own.
const FRAME_HEAD: usize = 64;
const REQUEST_HEAD: usize = 4;

/// Requests of one client that another process executes, in their order, until each has its outcome.
pub(super) struct ForwardedBatch<H: Host> {
    destination: H::Destination,
    requests: Vec<PendingRequest<H::Request>>,
    /// Each request as it is sent, until then.
    messages: Vec<ForwardedMessage>,
    /// How many have no outcome yet.
    left: usize,
    /// The greatest revision of the records by which requests moved on.
    moved: Revision,
}

/// The progress of a request.
enum PendingRequest<R> {
    /// It was sent to the other process.
    Asked(R),
    /// The other process didn't do it, and this process looks again which one executes it.
    Returned(R),
    Done,
}

impl<R> PendingRequest<R> {
    /// Returns the request, if it has no outcome.
    fn left(self) -> Option<R> {
        match self {
            PendingRequest::Asked(it) | PendingRequest::Returned(it) => Some(it),
            PendingRequest::Done => None,
        }
    }
}

impl<H: Host> ForwardedBatch<H> {
    /// Makes a batch of these requests. All go in one frame, so that none overtakes another.
    pub(super) fn new(destination: H::Destination, requests: Vec<H::Request>) -> ForwardedBatch<H> {
        ForwardedBatch {
            destination,
            messages: requests.iter().map(H::Request::message).collect(),
            left: requests.len(),
            requests: requests.into_iter().map(PendingRequest::Asked).collect(),
            moved: Revision::NEVER,
        }
    }

    /// Returns the most bytes that its frame has.
    pub(super) fn size(&self) -> usize {
        let sizes = self.messages.iter().map(|it| it.bytes.len() + REQUEST_HEAD);
        FRAME_HEAD + sizes.sum::<usize>()
    }

    /// Returns whether it fits into one frame.
    pub(super) fn fits(&self) -> bool {
        RequestBatch::fits(self.messages.iter().map(|it| it.bytes.len()))
    }

    /// Takes out the requests that a process with this version of the table of commands doesn't know. None must have
    /// been sent yet. The others keep their order.
    pub(super) fn take_unknown(&mut self, table: u16) -> Vec<H::Request> {
        if self.messages.iter().all(|it| it.table <= table) {
            return Vec::new();
        }
        let requests = std::mem::take(&mut self.requests).into_iter();
        let both = requests.zip(std::mem::take(&mut self.messages));
        let (known, unknown): (Vec<_>, Vec<_>) = both.partition(|it| it.1.table <= table);
        (self.requests, self.messages) = known.into_iter().unzip();
        self.left = self.requests.len();
        let unknown = unknown.into_iter().filter_map(|it| it.0.left());
        unknown.collect()
    }

    /// Drops the requests for which nobody waits. None must have been sent yet. Returns whether some are left.
    pub(super) fn keep_awaited(&mut self) -> bool {
        let is_awaited = |it: &PendingRequest<H::Request>| match it {
            PendingRequest::Asked(request) => request.is_awaited(),
            PendingRequest::Returned(_) | PendingRequest::Done => true,
        };
        if !self.requests.iter().all(is_awaited) {
            let requests = std::mem::take(&mut self.requests).into_iter();
            let both = requests.zip(std::mem::take(&mut self.messages));
            (self.requests, self.messages) = both.filter(|it| is_awaited(&it.0)).unzip();
            self.left = self.requests.len();
        }
        self.left > 0
    }

    /// Writes its frame with this number at this moment, and frees the requests' bytes, because the frame is written
    /// only once.
    pub(super) fn write(&mut self, number: u64, now: Instant, out: &mut Vec<u8>) {
        let messages = std::mem::take(&mut self.messages);
        let waited = now.saturating_duration_since(self.since()).as_millis();
        let batch = RequestBatch {
            shard: self.destination.shard(),
            server: self.destination.server(),
            came: self.destination.came(),
            waited: u32::try_from(waited).unwrap_or(u32::MAX),
            requests: messages.iter().map(|it| &*it.bytes).collect(),
        };
        Frame::<H::Reason>::Requests(batch).write(number, out);
    }

    /// Returns since when these wait.
    pub(super) fn since(&self) -> Instant {
        self.destination.since()
    }

    /// Returns whether these have waited for so long.
    pub(super) fn has_waited(&self, wait: Duration, now: Instant) -> bool {
        self.since() + wait <= now
    }

    /// Takes the outcome of the request at this place. A second outcome, or one for no request, changes nothing.
    pub(super) fn take_outcome(&mut self, place: u16, outcome: RequestOutcome<'_, H::Reason>) {
        let Some(place) = self.requests.get_mut(usize::from(place)) else {
            return;
        };
        let request = match std::mem::replace(place, PendingRequest::Done) {
            PendingRequest::Asked(request) => request,
            other => return *place = other,
        };
        self.left -= 1;
        match outcome {
            RequestOutcome::Answer(answer) => request.answer(answer),
            RequestOutcome::NotDone(reason) => match reason.looks_again() {
                Some(revision) => {
                    self.moved = self.moved.max(revision);
                    *place = PendingRequest::Returned(request);
                }
                None => request.refuse(reason),
            },
        }
    }

    /// Returns whether each request has its outcome.
    pub(super) fn is_over(&self) -> bool {
        self.left == 0
    }

    /// Notes that the remaining outcomes won't come. A request that may have been done isn't sent again, unless it
    /// changes nothing.
    pub(super) fn lose(&mut self, why: &str) {
        self.left = 0;
        for place in &mut self.requests {
            *place = match std::mem::replace(place, PendingRequest::Done) {
                PendingRequest::Asked(request) => request
                    .after_loss(why)
                    .map_or(PendingRequest::Done, PendingRequest::Returned),
                other => other,
            };
        }
    }

    /// Returns the requests without an outcome, if there are any.
    pub(super) fn returned(self) -> Option<ReturnedRequests<H>> {
        let requests = self.requests.into_iter().filter_map(PendingRequest::left);
        let requests: Vec<_> = requests.collect();
        (!requests.is_empty()).then_some(ReturnedRequests {
            destination: self.destination,
            requests,
            revision: self.moved,
        })
    }
}

#[cfg(test)]
mod tests {
    use super::super::trial::{moment, TestDestination, TestHost, TestReason, TestRequest};
    use super::*;
    use std::sync::mpsc::Receiver;

    type Batch = ForwardedBatch<TestHost>;

    /// Returns a request that may be done twice and one that may not, and the receiver of their ends.
    fn forwarded() -> (Batch, Receiver<String>) {
        let (requests, told) = TestRequest::each(&["read", "write", "change", "again"]);
        (Batch::new(TestDestination(moment(0)), requests), told)
    }

    fn names(returned: Option<ReturnedRequests<TestHost>>) -> Vec<&'static str> {
        let requests = returned.into_iter().flat_map(|it| it.requests);
        requests.map(|it| it.name).collect()
    }

    fn written(batch: &mut Batch) -> Vec<u8> {
        let mut bytes = Vec::new();
        batch.write(1, moment(0), &mut bytes);
        bytes
    }

    fn requests_of(bytes: &[u8]) -> Vec<&[u8]> {
        match Frame::<TestReason>::read(bytes).unwrap().unwrap().1 {
            Frame::Requests(batch) => batch.requests,
            Frame::Outcome(..) | Frame::Command(_) => panic!("it is another frame"),
        }
    }

    #[test]
    fn what_is_answered_is_over_and_what_moved_goes_on() {
        let (mut batch, told) = forwarded();
        let size = batch.size();
        let bytes = written(&mut batch);
        assert!(requests_of(&bytes).len() == 4 && bytes.len() <= size);
        let moved = |it| RequestOutcome::NotDone(TestReason::Moved(Revision(it)));
        batch.take_outcome(2, moved(7));
        batch.take_outcome(1, RequestOutcome::Answer(b"+OK"));
        // A request that has its outcome, or doesn't exist, gets no other one.
        batch.take_outcome(1, moved(8));
        batch.take_outcome(2, RequestOutcome::Answer(b"+OK"));
        batch.take_outcome(9, moved(9));
        assert!(!batch.is_over());
        batch.take_outcome(3, RequestOutcome::NotDone(TestReason::Stopped));
        let unknown = TestReason::unknown("nobody knows".to_owned());
        batch.take_outcome(0, RequestOutcome::NotDone(unknown));
        assert!(batch.is_over());
        let returned = batch.returned().unwrap();
        assert_eq!(returned.revision, Revision(7));
        assert_eq!(names(Some(returned)), ["change", "again"]);
        let told: Vec<_> = told.try_iter().collect();
        assert_eq!(told, ["write: +OK", "read: Unknown(\"nobody knows\")"]);
    }

    #[test]
    fn what_may_be_done_is_asked_again_if_that_changes_nothing() {
        let (mut batch, told) = forwarded();
        batch.lose("it is gone");
        assert_eq!(names(batch.returned()), ["read", "again"]);
        let told: Vec<_> = told.try_iter().collect();
        assert_eq!(
            told,
            ["write: lost: it is gone", "change: lost: it is gone"]
        );
    }

    #[test]
    fn what_was_not_sent_is_refused_with_the_reason() {
        let (batch, told) = forwarded();
        let second = Duration::from_secs(1);
        assert!(!batch.has_waited(second, moment(999)) && batch.has_waited(second, moment(1_000)));
        batch.returned().unwrap().refuse(2, "nobody listens");
        let told: Vec<_> = told.try_iter().collect();
        assert!(
            told.len() == 4 && told[0] == "read: unreached 2: nobody listens",
            "{told:?}"
        );
    }

    #[test]
    fn what_another_version_knows_goes_with_the_others_in_one_frame() {
        let asked = || {
            let (mut requests, told) = TestRequest::each(&["a", "b", "c", "d"]);
            requests[1].table = 2;
            requests[2].table = 3;
            (Batch::new(TestDestination(moment(0)), requests), told)
        };
        let (mut batch, _told) = asked();
        assert!(batch.take_unknown(3).is_empty());
        assert_eq!(requests_of(&written(&mut batch)), [b"a", b"b", b"c", b"d"]);
        let (mut batch, told) = asked();
        let unknown: Vec<_> = batch.take_unknown(1).iter().map(|it| it.name).collect();
        assert_eq!(unknown, ["b", "c"]);
        assert_eq!(requests_of(&written(&mut batch)), [b"a", b"d"]);
        batch.take_outcome(1, RequestOutcome::Answer(b"+OK"));
        assert!(!batch.is_over());
        batch.take_outcome(0, RequestOutcome::Answer(b"+OK"));
        assert!(batch.is_over());
        assert_eq!(told.try_iter().collect::<Vec<_>>(), ["d: +OK", "a: +OK"]);
    }

    #[test]
    fn a_request_of_a_client_that_has_left_is_not_sent() {
        let (mut requests, told) = TestRequest::each(&["a", "b", "c"]);
        requests[1].is_awaited = false;
        let mut batch = Batch::new(TestDestination(moment(0)), requests);
        assert!(batch.keep_awaited());
        assert_eq!(requests_of(&written(&mut batch)), [b"a", b"c"]);
        batch.take_outcome(1, RequestOutcome::Answer(b"+OK"));
        assert!(!batch.is_over());
        batch.take_outcome(0, RequestOutcome::Answer(b"+OK"));
        assert!(batch.is_over());
        assert_eq!(told.try_iter().collect::<Vec<_>>(), ["c: +OK", "a: +OK"]);
        let (mut requests, _told) = TestRequest::each(&["a"]);
        requests[0].is_awaited = false;
        let mut batch = Batch::new(TestDestination(moment(0)), requests);
        assert!(!batch.keep_awaited());
    }
}
