use super::advance::Advance;
use super::answer::ControlAnswer;
use super::backend::BackendFault;
use super::controller::Controller;
use super::migration::Migration;
use super::moves::{EndedMove, Moves};
use super::shares::Shares;
use super::Refusal;
use durkenzo_driver::Intent;
use std::collections::{BTreeSet, VecDeque};

/// The most moves that are planned after one look at all shards. The next look sees changes that happen meanwhile.
const MOST_PLANNED: usize = 64;

/// Migrations that even out how many shards servers have. Proved code decides whether each of them may be made. Each
/// call makes a step.
#[derive(Debug, Default)]
pub(super) struct Spread {
    moves: Moves,
    /// The next moves: shards and destinations.
    planned: VecDeque<(u16, u16)>,
    /// The servers that refused a shard, and get no other one.
    full: BTreeSet<u16>,
    /// The shards that a move was refused for, and that stay where they are.
    aside: BTreeSet<u16>,
    /// The outcomes of earlier moves.
    told: Vec<String>,
    /// Whether it is an intent, or may be one, so that the next leader goes on with it.
    is_intended: bool,
    /// Whether the backend has confirmed that it keeps the intent, if it keeps any.
    has_intended: bool,
}

impl Spread {
    /// Returns a spread that an earlier leader began.
    pub(super) fn going_on() -> Spread {
        Spread {
            is_intended: true,
            has_intended: true,
            ..Spread::default()
        }
    }

    /// Returns whether the next leader goes on with it.
    pub(super) fn is_intended(&self) -> bool {
        self.is_intended
    }

    /// Returns the shards that are on their way.
    pub(super) fn shards_under_way(&self) -> impl Iterator<Item = u16> + '_ {
        self.moves.shards()
    }

    /// Makes the next step. At the end, tells the outcome for each shard.
    pub(super) fn advance(&mut self, control: &mut Controller) -> Result<Advance, Refusal> {
        let advanced = self.go_on(control);
        if advanced.as_ref().is_err_and(|it| !it.is_of_store()) {
            self.moves.hand_over(control);
        }
        advanced
    }

    fn go_on(&mut self, control: &mut Controller) -> Result<Advance, Refusal> {
        self.leave_out_drained(control);
        if let Some(ended) = self.moves.advance(control)? {
            self.note(ended);
        }
        if !self.moves.has_room(control) {
            return Ok(self.moves.wait(control));
        }
        if self.planned.is_empty() {
            if !self.moves.have_begun() {
                return Ok(self.moves.wait(control));
            }
            self.plan(control)?;
        }
        match self.planned.pop_front() {
            Some((shard, to)) => {
                self.moves.add(Migration::new(shard, to), to, None);
                Ok(Advance::soon())
            }
            None if !self.moves.is_empty() => Ok(self.moves.wait(control)),
            None => self.ended(control),
        }
    }

    /// Begins no more moves to servers for which a drain was asked, even if the moves were planned before that.
    fn leave_out_drained(&mut self, control: &Controller) {
        self.planned.retain(|it| !control.drained.contains(&it.1));
        self.moves.leave_out(&control.drained);
    }

    /// Notes the outcome for a shard.
    fn note(&mut self, ended: EndedMove) {
        let EndedMove { shard, to, outcome } = ended;
        self.told.push(match outcome {
            Ok(()) => format!("{shard}>{to}"),
            Err(refusal) => {
                // Somebody else may have the shard: that says nothing of the server.
                match refusal.is_of_shard() {
                    true => self.aside.insert(shard),
                    false => self.full.insert(to),
                };
                self.planned.clear();
                format!("shard {shard} doesn't go to server {to}: {refusal}")
            }
        });
    }

    /// Plans the next moves. They are an intent before the first one begins.
    fn plan(&mut self, control: &mut Controller) -> Result<(), Refusal> {
        let mut shares = Shares::of(control)?;
        shares.hold(&self.aside);
        let planned = std::iter::from_fn(|| shares.next(&self.full));
        let planned: VecDeque<_> = planned.take(MOST_PLANNED).collect();
        if planned.is_empty() {
            return Ok(());
        }
        self.intend(control)?;
        control.forget_homes_of(planned.iter().map(|it| it.0))?;
        self.planned = planned;
        Ok(())
    }

    fn intend(&mut self, control: &mut Controller) -> Result<(), Refusal> {
        if self.has_intended {
            return Ok(());
        }
        let intended = control.backend.intend(&[Intent::Spread]);
        let may_lie = intended.as_ref().err().is_none_or(BackendFault::is_unknown);
        // If an earlier attempt may have kept it, a later one doesn't undo that.
        self.is_intended |= may_lie && control.backend.lasts();
        intended?;
        self.has_intended = true;
        Ok(())
    }

    /// Ends the spread: everything is even, or as even as the servers allow.
    fn ended(&mut self, control: &mut Controller) -> Result<Advance, Refusal> {
        let told = ControlAnswer::Lines(self.told.clone());
        if self.is_intended && control.backend.withdraw(&[Intent::Spread]).is_err() {
            // The next step withdraws it.
            return Ok(Advance::Told(told));
        }
        self.is_intended = false;
        Ok(Advance::Done(told))
    }

    /// Ends it as it is: each shard under way belongs to one server only.
    pub(super) fn give_up(&self, control: &mut Controller) -> Result<(), Refusal> {
        self.moves.give_up(control)
    }
}

#[cfg(test)]
mod tests {
    use super::super::plain_backend::PlainBackend;
    use super::super::task::Task;
    use super::*;
    use durkenzo::Stand;
    use durkenzo_store::WriteError;
    use std::time::Duration;

    #[test]
    fn a_spread_is_intended_until_its_end() {
        let backend = PlainBackend::of(4, Stand::Serving(1));
        backend.plain().lasts = true;
        backend.plain().unkept = [WriteError::Unknown("cut".to_owned())].into();
        let (mut control, mut spread) = (backend.control(), Spread::default());
        // The intent may be there, and no shard has moved.
        spread.advance(&mut control).unwrap_err();
        assert!(spread.is_intended());
        let told = loop {
            match spread.advance(&mut control).unwrap() {
                Advance::Done(told) => break told,
                Advance::After(_) | Advance::Again | Advance::Later | Advance::Told(_) => {}
            }
        };
        let moved = ["3>2", "2>2"].map(str::to_owned).to_vec();
        assert_eq!(told, ControlAnswer::Lines(moved));
        assert!(!spread.is_intended());
        let counts: Vec<_> = backend.plain().stands.clone();
        assert_eq!(counts[..2], [Stand::Serving(1); 2]);
        assert_eq!(counts[2..], [Stand::Serving(2); 2]);
    }

    #[test]
    fn a_shard_that_does_not_move_holds_up_no_other() {
        let backend = PlainBackend::of(6, Stand::Serving(1));
        backend.plain().spent = [5].into();
        let (mut control, mut spread) = (backend.control(), Spread::default());
        let told = loop {
            if let Advance::Done(told) = spread.advance(&mut control).unwrap() {
                break told;
            }
        };
        let ControlAnswer::Lines(lines) = told else {
            panic!("{told:?}");
        };
        assert!(lines[0].starts_with("shard 5 doesn't go to server 2: REFUSED Spent"));
        assert_eq!(lines[1..], ["4>2", "3>2", "2>2"]);
    }

    #[test]
    fn whoever_leads_next_goes_on_with_a_spread() {
        let backend = PlainBackend::of(4, Stand::Serving(1));
        backend.plain().lasts = true;
        backend.plain().intents = vec![Intent::Spread];
        let mut control = backend.control();
        control.go_on_with_intents().unwrap();
        // Somebody may have asked for one before that was checked.
        control.go_on_with_intents().unwrap();
        assert_eq!(
            control.tasks.iter().filter(|it| Task::spreads(it)).count(),
            1
        );
        while !control.tasks.is_empty() {
            backend.plain().passed += Duration::from_millis(1);
            control.run_tasks();
        }
        assert_eq!(backend.plain().stands[3], Stand::Serving(2));
        assert_eq!(backend.plain().intents, []);
    }
}
