use super::advance::Advance;
use super::answer::ControlAnswer;
use super::controller::Controller;
use super::restart::Restart;
use super::Refusal;

/// Restarts of all servers in turn.
#[derive(Debug)]
pub(super) struct Rolling {
    next: u16,
    last: u16,
    current: Option<Restart>,
    told: Vec<String>,
}

impl Rolling {
    /// Returns the restarts of so many servers, from server 1 on.
    pub(super) fn new(servers: u16) -> Rolling {
        Rolling {
            next: 1,
            last: servers,
            current: None,
            told: Vec::new(),
        }
    }

    /// Returns the restart under way, if it has begun.
    pub(super) fn current(&self) -> Option<&Restart> {
        self.current.as_ref().filter(|it| it.has_begun())
    }

    /// Returns the same, with which the next leader goes on.
    pub(super) fn left(self) -> Option<Restart> {
        self.current.filter(Restart::has_begun)
    }

    /// Makes the next step. At the end, tells the result for each server.
    pub(super) fn advance(&mut self, control: &mut Controller) -> Result<Advance, Refusal> {
        if let Some(restart) = &mut self.current {
            match restart.advance(control)? {
                Advance::Done(answer) => {
                    if let ControlAnswer::Line(line) = answer {
                        self.told.push(line);
                    }
                    control.end_restart(restart.server());
                    self.current = None;
                }
                // The client is told all results together.
                Advance::Told(_) => return Ok(Advance::Later),
                other => return Ok(other),
            }
        }
        if self.next > self.last {
            return Ok(Advance::Done(ControlAnswer::Lines(std::mem::take(
                &mut self.told,
            ))));
        }
        self.current = Some(Restart::new(self.next));
        self.next += 1;
        Ok(Advance::soon())
    }
}
