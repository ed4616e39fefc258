use super::advance::Advance;
use super::answer::ControlAnswer;
use super::asked_command::AskedCommand;
use super::backend::FileWork;
use super::controller::Controller;
use super::drain::Drain;
use super::migration::Migration;
use super::restart::Restart;
use super::rolling_restart::Rolling;
use super::spread::Spread;
use super::{Refusal, ReplyTo};
use std::time::Instant;

/// Work that goes on by itself.
pub(super) struct Task {
    pub(super) work: TaskWork,
    /// The client that is answered at its end, if somebody asked.
    pub(super) reply_to: Option<Box<dyn ReplyTo>>,
    /// When it goes on; at once if no moment is set.
    pub(super) due: Option<Instant>,
}

impl Task {
    /// Returns the work, without a client to be answered.
    pub(super) fn of(work: TaskWork) -> Task {
        let (reply_to, due) = (None, None);
        Task {
            work,
            reply_to,
            due,
        }
    }

    /// Returns whether it goes on now.
    pub(super) fn is_due(&self, now: Instant) -> bool {
        self.due.is_none_or(|it| it <= now)
    }

    /// Returns the migration of this shard, or other work under way for it.
    pub(super) fn going_on(shard: u16) -> Task {
        Task::of(TaskWork::Migration(Migration::going_on(shard)))
    }

    /// Returns the restart of this server, which was asked for already.
    pub(super) fn restart(server: u16) -> Task {
        Task::of(TaskWork::Restart(Restart::going_on(server)))
    }

    /// Returns the end of this server's restart: its shards come home.
    pub(super) fn returning(server: u16) -> Task {
        Task::of(TaskWork::Restart(Restart::returning(server)))
    }

    /// Returns the drain of this server, which was asked for already.
    pub(super) fn drain(server: u16) -> Task {
        Task::of(TaskWork::Drain(Drain::going_on(server)))
    }

    /// Returns whether it is one command, for which somebody asked.
    pub(super) fn is_command(&self) -> bool {
        matches!(self.work, TaskWork::Command(_))
    }

    /// Returns the spread of all shards, which was asked for already.
    pub(super) fn spread() -> Task {
        Task::of(TaskWork::Spread(Spread::going_on()))
    }

    /// Returns whether it evens out how many shards servers have.
    pub(super) fn spreads(&self) -> bool {
        matches!(self.work, TaskWork::Spread(_))
    }

    /// Returns the server that it drains for good.
    pub(super) fn drains(&self) -> Option<u16> {
        match &self.work {
            TaskWork::Drain(drain) => Some(drain.server()),
            TaskWork::Migration(_)
            | TaskWork::Restart(_)
            | TaskWork::Rolling(_)
            | TaskWork::Spread(_)
            | TaskWork::Dump(_)
            | TaskWork::Load(_)
            | TaskWork::Command(_) => None,
        }
    }

    /// Returns the server that it restarts.
    pub(super) fn restarts(&self) -> Option<u16> {
        match &self.work {
            TaskWork::Restart(restart) => Some(restart.server()),
            TaskWork::Migration(_)
            | TaskWork::Drain(_)
            | TaskWork::Rolling(_)
            | TaskWork::Spread(_)
            | TaskWork::Dump(_)
            | TaskWork::Load(_)
            | TaskWork::Command(_) => None,
        }
    }

    /// Returns the shard whose migration it is, once that has begun.
    pub(super) fn migrates(&self) -> Option<u16> {
        match &self.work {
            TaskWork::Migration(migration) => migration.has_begun().then(|| migration.shard()),
            TaskWork::Drain(_)
            | TaskWork::Restart(_)
            | TaskWork::Rolling(_)
            | TaskWork::Spread(_)
            | TaskWork::Dump(_)
            | TaskWork::Load(_)
            | TaskWork::Command(_) => None,
        }
    }

    /// Returns the shard with which it goes on, if nobody asked for that.
    pub(super) fn shard_going_on(&self) -> Option<u16> {
        self.migrates().filter(|_| self.reply_to.is_none())
    }
}

/// Work that goes on by itself, a step at a time.
pub(super) enum TaskWork {
    Migration(Migration),
    Drain(Drain),
    Restart(Restart),
    Rolling(Rolling),
    Spread(Spread),
    Dump(Box<dyn FileWork>),
    Load(Box<dyn FileWork>),
    Command(AskedCommand),
}

impl TaskWork {
    /// Makes the next step.
    pub(super) fn advance(&mut self, control: &mut Controller) -> Result<Advance, Refusal> {
        match self {
            TaskWork::Migration(migration) => migration.advance(control),
            TaskWork::Drain(drain) => drain.advance(control),
            TaskWork::Restart(restart) => {
                match (restart.advance(control)?, control.backend.lasts()) {
                    // In memory mode it has always been answered like this.
                    (Advance::Done(ControlAnswer::Line(line)), false) => {
                        Ok(Advance::Done(ControlAnswer::Lines(vec![line])))
                    }
                    (advance, _) => Ok(advance),
                }
            }
            TaskWork::Rolling(rolling) => rolling.advance(control),
            TaskWork::Spread(spread) => spread.advance(control),
            TaskWork::Dump(dump) => dump.advance(),
            TaskWork::Load(load) => {
                let advanced = load.advance();
                // Everything that has changed by now is told, even if the rest of the work fails.
                control.renew();
                advanced
            }
            TaskWork::Command(command) => command.advance(control),
        }
    }

    /// Returns the server whose progress it notes, once it has begun.
    pub(super) fn server(&self) -> Option<u16> {
        match self {
            TaskWork::Drain(drain) => Some(drain.server()),
            TaskWork::Restart(restart) => Some(restart)
                .filter(|it| it.has_begun())
                .map(Restart::server),
            TaskWork::Rolling(rolling) => rolling.current().map(Restart::server),
            TaskWork::Migration(_)
            | TaskWork::Spread(_)
            | TaskWork::Dump(_)
            | TaskWork::Load(_)
            | TaskWork::Command(_) => None,
        }
    }

    /// Returns whether the next leader goes on with it, even if nobody waits for it any more.
    pub(super) fn is_intended(&self) -> bool {
        match self {
            TaskWork::Migration(migration) => migration.has_begun(),
            TaskWork::Drain(drain) => drain.is_intended(),
            TaskWork::Restart(restart) => restart.has_begun(),
            TaskWork::Spread(spread) => spread.is_intended(),
            TaskWork::Rolling(_) | TaskWork::Dump(_) | TaskWork::Load(_) | TaskWork::Command(_) => {
                false
            }
        }
    }

    /// Returns the work that goes on if the store ended it: migrations that it may have begun, and the restart under
    /// way.
    pub(super) fn left(self) -> Vec<TaskWork> {
        let going_on = |shard| TaskWork::Migration(Migration::going_on(shard));
        match self {
            TaskWork::Migration(it) => vec![going_on(it.shard())],
            TaskWork::Rolling(it) => it.left().map(TaskWork::Restart).into_iter().collect(),
            TaskWork::Spread(it) => it.shards_under_way().map(going_on).collect(),
            TaskWork::Drain(_)
            | TaskWork::Restart(_)
            | TaskWork::Dump(_)
            | TaskWork::Load(_)
            | TaskWork::Command(_) => Vec::new(),
        }
    }

    /// Ends it as it is, because the process ends, with everything under way in it: each shard belongs to one server
    /// only.
    pub(super) fn give_up(&self, control: &mut Controller) -> Result<(), Refusal> {
        match self {
            TaskWork::Migration(migration) => migration.give_up(control),
            TaskWork::Drain(drain) => drain.give_up(control),
            TaskWork::Restart(restart) => restart.give_up_where_it_is(control),
            TaskWork::Rolling(rolling) => match rolling.current() {
                Some(restart) => restart.give_up_where_it_is(control),
                None => Ok(()),
            },
            TaskWork::Spread(spread) => spread.give_up(control),
            TaskWork::Dump(_) | TaskWork::Load(_) | TaskWork::Command(_) => Ok(()),
        }
    }
}
