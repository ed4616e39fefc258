use durkenzo_driver::{Begin, MapReply, MapRequest, NotDone, Work, WorkOutcome, WorkStep};

/// A numbered write that was sent to a process which didn't answer. Whoever refuses it from now on doesn't know whether
/// it was done.
pub(super) struct UnsureWork {
    work: Box<dyn Work>,
    /// Why the process didn't answer.
    why: String,
}

impl UnsureWork {
    /// If the step writes, returns it as such a work; otherwise returns the step as it is.
    pub(super) fn step(step: WorkStep, why: &str) -> WorkStep {
        let WorkStep { begin, work } = step;
        let work = match begin {
            Begin::Numbered(..) => Box::new(UnsureWork {
                work,
                why: why.to_owned(),
            }),
            _ => work,
        };
        WorkStep { begin, work }
    }
}

impl Work for UnsureWork {
    fn decide(&mut self, held: Vec<MapReply>) -> Vec<MapRequest> {
        self.work.decide(held)
    }

    fn is_wanted(&self) -> bool {
        self.work.is_wanted()
    }

    fn spell(&self) -> Vec<u8> {
        self.work.spell()
    }

    fn answered(self: Box<Self>, answer: &[u8]) {
        self.work.answered(answer);
    }

    fn end(self: Box<Self>, outcome: WorkOutcome) {
        self.work.end(match outcome {
            Err(NotDone::Passed) => Err(NotDone::Passed),
            Err(_) => Err(NotDone::Unknown(self.why)),
            made => made,
        });
    }
}
