//! A board with its control, and what tests ask of them.
ghost use Rattle.std.specs.Prelude.{◌≡◌, ◌≤◌, [], All, length};
ghost use Rattle.sm_ranges.specs.declared.stand.Stand.TheVariants.{Vacant};

use crate::common::shard;
use sm_control::{Control, DrainFault};
use sm_desk::{Command, CommandFault, Desk};
use sm_ownership::mode::Mode;
use sm_ownership::record::Record;
use sm_ownership::route::Route;
use sm_ownership::route_fault::RouteFault;
use sm_place::Plan;
use sm_ranges::{ServerId, ShardId};
use sm_rule::Board;
use sm_service::Service;
use std::alloc::Global;
use std::process::Abort;

/// What a control answers to a command.
pub(crate) type Answer = Result<(), CommandFault>;

/// A board of one shard or more, with its control.
#[derive(Drop)]
pub(crate) struct Running<S: Service> {
    pub(crate) board: Board<S>,
    pub(crate) control: Control<S>,
    ghost tied: { control.chair.board ≡ board },
    ghost shards: { 1 ≤ board.limits.count },
}

impl<S: Service> Running<S> {
    /// A board with these bodies, and a control at this desk.
    pub(crate) fn new(
        rt: &impl Abort,
        alloc: Global,
        bodies: Vec<S>,
        desk: Desk,
        ceiling: u64,
    ) -> Running<S>
        requires count { length desk.books.shards ≡ length bodies.items }
        requires some { 1 ≤ length bodies.items }
        requires vacant { All (λ shard. shard.stand ≡ Vacant) desk.books.shards }
        requires initial { All (λ body. S.base body ≡ S.initial) bodies.items }
        requires before { All (λ body. S.before body ≡ 0) bodies.items }
        requires empty { All (λ body. S.requests body ≡ []) bodies.items }
    {
        let (board, chair) = Board::make(alloc, bodies, ceiling)
            .ok()
            .expect(rt, "a board");
        Running {
            board,
            control: Control::new(chair, desk),
        }
    }

    /// What the control answers to the command.
    pub(crate) fn command(&mut self, command: Command) -> Answer {
        self.control.command(&self.board, command)
    }

    /// What the control answers where the shard is assigned by its own call, and so the calls below.
    pub(crate) fn assign(&mut self, k: ShardId, owner: ServerId) -> Answer {
        self.control.assign(&self.board, k, owner)
    }

    pub(crate) fn prepare_add_shard(&mut self, k: ShardId, next: ServerId) -> Answer {
        self.control.prepare_add_shard(&self.board, k, next)
    }

    pub(crate) fn prepare_drop_shard(&mut self, k: ShardId) -> Answer {
        self.control.prepare_drop_shard(&self.board, k)
    }

    pub(crate) fn add_shard(&mut self, k: ShardId) -> Answer {
        self.control.add_shard(&self.board, k)
    }

    pub(crate) fn drop_shard(&mut self, k: ShardId) -> Answer {
        self.control.drop_shard(&self.board, k)
    }

    pub(crate) fn cancel(&mut self, k: ShardId) -> Answer {
        self.control.cancel(&self.board, k)
    }

    pub(crate) fn pause(&mut self, k: ShardId) -> Answer {
        self.control.pause(&self.board, k)
    }

    pub(crate) fn resume(&mut self, k: ShardId) -> Answer {
        self.control.resume(&self.board, k)
    }

    pub(crate) fn reassign(&mut self, k: ShardId, owner: ServerId) -> Answer {
        self.control.reassign(&self.board, k, owner)
    }

    pub(crate) fn ask(&mut self, a: ServerId) -> Answer {
        self.control.ask(a)
    }

    pub(crate) fn approve(&mut self, a: ServerId) -> Answer {
        self.control.approve(a)
    }

    pub(crate) fn stopped(&mut self, a: ServerId) -> Answer {
        self.control.stopped(a)
    }

    pub(crate) fn back(&mut self, a: ServerId) -> Answer {
        self.control.back(a)
    }

    pub(crate) fn fail(&mut self, a: ServerId) -> Answer {
        self.control.fail(a)
    }

    /// The shard's route, where it has one.
    pub(crate) fn route(&mut self, k: ShardId) -> Result<Route, RouteFault> {
        self.control.route(&self.board, k)
    }

    /// A plan for the vacant shards.
    pub(crate) fn plan_assign(&self, rt: &impl Abort, alloc: Global) -> Plan {
        self.control.plan_assign(alloc).ok().expect(rt, "a plan")
    }

    /// A plan for the shards of the server.
    pub(crate) fn plan_drain(&self, alloc: Global, a: ServerId) -> Result<Plan, DrainFault> {
        self.control.plan_drain(alloc, a)
    }

    /// What a new pass sees of the first shard, once the control told it what it knows.
    pub(crate) fn first_record(&mut self) -> Record {
        let k = shard(0);
        let mut reader = self.board.pass(None);
        let note = self.control.note(&self.board);
        self.board.meet(&mut reader, note);
        self.board.look(&mut reader, k)
    }

    /// What the control answers to a pause of the first shard while a pass of the server is admitted; none where it isn't admitted.
    pub(crate) fn pause_under_a_permit(&mut self, server: ServerId) -> Option<Answer> {
        let k = shard(0);
        let mut pass = self.board.pass(Some(server));
        let Ok(permit) = self.board.admit(&mut pass, k, Mode::Direct) else {
            return None;
        };
        let answer = self.control.pause(&self.board, k);
        self.board.finish(&mut pass, permit);
        Some(answer)
    }
}
