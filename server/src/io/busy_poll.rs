use std::time::Duration;

/// How many waits a trial of either way has.
const TRIAL: u32 = 256;
/// How many waits use the quicker way before both are tried again. There are so many that the slower way is less than
/// one in a hundred.
const TERM: u32 = 32_768;

/// Decides whether a thread that runs out of work polls for events for a short time before it sleeps. Polling makes
/// sense if the last events came soon; a thread with few events then uses no processor. It also makes sense only if
/// there is a processor to spare: otherwise a client would wait for the processor on which the thread polls. So both
/// ways are tried from time to time, and the thread uses the one by which the next events came sooner.
#[derive(Debug)]
pub(super) struct BusyPoll {
    most: Duration,
    comes_soon: bool,
    stage: PollStage,
    /// How many waits of the stage are left.
    left: u32,
    /// How long its waits took. Each counts at most as twice the longest polling time.
    spent: Duration,
}

#[derive(Clone, Copy, Debug, PartialEq, Eq)]
enum PollStage {
    TryPolling,
    /// It follows polling, which took so long.
    TrySleeping(Duration),
    Poll,
    Sleep,
}

impl BusyPoll {
    /// Makes one that polls for at most so long.
    pub(super) fn new(most: Duration) -> BusyPoll {
        BusyPoll {
            most,
            comes_soon: true,
            stage: PollStage::TryPolling,
            left: TRIAL,
            spent: Duration::ZERO,
        }
    }

    /// Returns whether to poll.
    pub(super) fn begins(&self) -> bool {
        let polls = matches!(self.stage, PollStage::TryPolling | PollStage::Poll);
        polls && self.comes_soon && !self.most.is_zero()
    }

    /// Returns whether to go on polling after so long.
    pub(super) fn goes_on(&self, since: Duration) -> bool {
        since < self.most
    }

    /// Notes that events came to a thread that had no work for so long.
    pub(super) fn note(&mut self, took: Duration) {
        self.comes_soon = took < self.most;
        self.spent += took.min(2 * self.most);
        self.left -= 1;
        if self.left == 0 {
            (self.stage, self.left) = self.next();
            self.spent = Duration::ZERO;
        }
    }

    /// Returns the next stage, and how many waits it has.
    fn next(&self) -> (PollStage, u32) {
        match self.stage {
            PollStage::TryPolling => (PollStage::TrySleeping(self.spent), TRIAL),
            PollStage::TrySleeping(polling) if polling < self.spent => (PollStage::Poll, TERM),
            PollStage::TrySleeping(_) => (PollStage::Sleep, TERM),
            PollStage::Poll | PollStage::Sleep => (PollStage::TryPolling, TRIAL),
        }
    }
}

#[cfg(test)]
mod tests {
    use super::*;

    const MOST: Duration = Duration::from_micros(50);

    #[test]
    fn it_polls_where_events_come_soon() {
        let mut polls = BusyPoll::new(MOST);
        assert!(polls.begins() && polls.goes_on(MOST / 2) && !polls.goes_on(MOST));
        polls.note(MOST);
        assert!(!polls.begins());
        polls.note(MOST / 2);
        assert!(polls.begins());
        assert!(!BusyPoll::new(Duration::ZERO).begins());
    }

    /// Returns how many waits polled after both trials, if the next events come after so long by either way.
    fn polled(polling: Duration, sleeping: Duration) -> u32 {
        let mut polls = BusyPoll::new(MOST);
        let waits = (0..2 * TRIAL + TERM).map(|_| {
            let begins = polls.begins();
            polls.note(if begins { polling } else { sleeping });
            u32::from(begins)
        });
        waits.skip(2 * TRIAL as usize).sum()
    }

    #[test]
    fn it_takes_the_quicker_way() {
        assert_eq!(polled(MOST / 6, MOST / 5), TERM);
        assert_eq!(polled(MOST / 4, MOST / 5), 0);
        // If events come seldom, no wait begins with polling.
        assert_eq!(polled(MOST / 4, 100 * MOST), 0);
    }
}
