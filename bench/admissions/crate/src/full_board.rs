ghost use Rattle.std.specs.Prelude.{All, ◌≡◌, ◌<◌, IfSome, None, [], length};

use crate::tally::Tally;
use sm_body::service::Service;
use sm_ownership::admit_fault::AdmitFault;
use sm_ownership::change::Change;
use sm_ownership::mode::Mode;
use sm_ownership::record::Record;
use sm_ranges::server_id::ServerId;
use sm_ranges::shard_id::ShardId;
use sm_ranges::stand::Stand;
use sm_rule::admit_refusal::AdmitRefusal;
use sm_rule::board::Board;
use sm_rule::chair::Chair;
use sm_rule::pass::Pass;
use std::alloc::Global;

const SHARDS: u16 = 4096;

const CEILING: u64 = (1 << 36) - 1;

const FIRST_CHOICE: u64 = 88_172_645_463_325_252;

/// The next state of a pseudo-random choice (xorshift64).
fn next(state: u64) -> u64 {
    let state = state ^ (state << 13);
    let state = state ^ (state >> 7);
    state ^ (state << 17)
}

/// The shard that a choice or a sum picks.
fn shard_of(choice: u64) -> ShardId
    ensures { result < 4096 }
{
    let Some(k) = ShardId::new((choice >> 40 & 4095) as u16) else {
        unreachable!()
    };
    k
}

/// What a look tells: the number of a server that serves the shard and isn't admitted to it now, and the generation, in one sum;
/// or 0.
fn told_by(state: &Record) -> u64 {
    match state.stand {
        Stand::Serving(owner) => if state.admitted {
            0
        } else {
            u64::from(owner.number()).wrapping_add(state.generation)
        },
        _ => 0,
    }
}

/// A loop on a board, by the name of its method.
#[derive(Clone, Copy)]
pub(crate) enum Loop {
    Looks,
    ChainedLooks,
    Admissions,
    Executions,
    Refusals,
    Notes,
    Meetings,
}

/// A board of 4,096 shards, its chair, a pass with server 1, which serves all shards, and one with server 2.
#[derive(Drop)]
pub(crate) struct FullBoard {
    board: Board<Tally>,
    chair: Chair<Tally>,
    pass: Pass<Tally>,
    stranger: Pass<Tally>,
    ghost full: { board.limits.count ≡ 4096 },
    ghost chair_tied: { chair.board ≡ board },
    ghost pass_tied: { pass.board ≡ board },
    ghost free: { pass.held ≡ None },
    ghost stranger_tied: { stranger.board ≡ board },
    ghost stranger_free: { stranger.held ≡ None },
}

impl FullBoard {
    /// The board, or none where memory is refused.
    pub(crate) fn make(alloc: Global) -> Option<FullBoard> {
        let owner = ServerId::new(1)?;
        let (board, chair) = Board::make(alloc, tallies(alloc)?, CEILING).ok()?;
        let pass = board.pass(Some(owner));
        let stranger = board.pass(ServerId::new(2));
        let mut full = FullBoard {
            board,
            chair,
            pass,
            stranger,
        };
        full.assign_all(owner);
        Some(full)
    }

    fn assign_all(&mut self, owner: ServerId) {
        for number in 0..SHARDS {
            if let Some(k) = ShardId::new(number) {
                self.assign(k, owner);
            }
        }
    }

    fn assign(&mut self, k: ShardId, owner: ServerId) {
        if let Stand::Vacant = self.chair.stand(k) {
            let _refused = self
                .board
                .change(&mut self.chair, k, Change::Assign(owner))
                .is_err();
        }
    }

    /// Runs the loop so often, and gives its sum.
    pub(crate) fn run(&mut self, which: Loop, turns: u64) -> u64 {
        match which {
            Loop::Looks => self.looks(turns),
            Loop::ChainedLooks => self.chained_looks(turns),
            Loop::Admissions => self.admissions(turns),
            Loop::Executions => self.executions(turns),
            Loop::Refusals => self.refusals(turns),
            Loop::Notes => self.notes(turns),
            Loop::Meetings => self.meetings(turns),
        }
    }

    // Looks at shards chosen at random, and sums what they tell.
    fn looks(&mut self, looks: u64) -> u64 {
        let mut choice = FIRST_CHOICE;
        let mut told = 0u64;
        for _ in 0..looks {
            choice = next(choice);
            told = told.wrapping_add(self.look(shard_of(choice)));
        }
        told
    }

    // Looks at a shard that the look before it tells, again and again, and sums what they tell.
    fn chained_looks(&mut self, looks: u64) -> u64 {
        let mut choice = FIRST_CHOICE;
        let mut told = 0u64;
        for _ in 0..looks {
            choice = next(choice);
            told = told.wrapping_add(self.look(shard_of(choice ^ told)));
        }
        told
    }

    // Is admitted to shards chosen at random and ends that at once, and sums the generations that this leaves.
    fn admissions(&mut self, tries: u64) -> u64 {
        let mut choice = FIRST_CHOICE;
        let mut left = 0u64;
        for _ in 0..tries {
            choice = next(choice);
            left = left.wrapping_add(self.admission(shard_of(choice)));
        }
        left
    }

    fn look(&mut self, k: ShardId) -> u64 {
        told_by(&self.board.look(&mut self.pass, k))
    }

    // Is admitted to shards chosen at random, counts in their bodies and ends that, and sums the counts.
    fn executions(&mut self, tries: u64) -> u64 {
        let mut choice = FIRST_CHOICE;
        let mut counted = 0u64;
        for _ in 0..tries {
            choice = next(choice);
            counted = counted.wrapping_add(self.execution(shard_of(choice)));
        }
        counted
    }

    // Is refused at shards chosen at random, as another server serves them, and sums the generations read.
    fn refusals(&mut self, tries: u64) -> u64 {
        let mut choice = FIRST_CHOICE;
        let mut read = 0u64;
        for _ in 0..tries {
            choice = next(choice);
            read = read.wrapping_add(self.refused(shard_of(choice)));
        }
        read
    }

    // Makes so many notes of the pass and drops each, and counts them.
    fn notes(&mut self, notes: u64) -> u64 {
        let mut made = 0u64;
        for _ in 0..notes {
            made = made.wrapping_add(self.note());
        }
        made
    }

    // Makes so many notes of the pass, has it meet each, and counts them.
    fn meetings(&mut self, notes: u64) -> u64 {
        let mut met = 0u64;
        for _ in 0..notes {
            met = met.wrapping_add(self.meeting());
        }
        met
    }

    // Makes a note and drops it.
    fn note(&mut self) -> u64 {
        let _note = self.board.note(&mut self.pass);
        1
    }

    // Makes a note and has the pass meet it.
    fn meeting(&mut self) -> u64 {
        let note = self.board.note(&mut self.pass);
        self.board.meet(&mut self.pass, note);
        1
    }

    // The generation at which an admission leaves the shard, or 0.
    fn admission(&mut self, k: ShardId) -> u64 {
        match self.board.admit(&mut self.pass, k, Mode::Direct) {
            Ok(permit) => self.board.finish(&mut self.pass, permit).generation,
            Err(_) => 0,
        }
    }

    // The generation by which server 2 isn't the shard's executor, or 0.
    fn refused(&mut self, k: ShardId) -> u64 {
        match self.board.admit(&mut self.stranger, k, Mode::Direct) {
            Err(AdmitRefusal::Refused(AdmitFault::NotExecutor, read)) => read.generation,
            Err(_) => 0,
            Ok(permit) => {
                let _front = self.board.finish(&mut self.stranger, permit);
                0
            }
        }
    }

    // How many requests the shard's body keeps after one more, or 0.
    fn execution(&mut self, k: ShardId) -> u64 {
        match executed(&self.board, &mut self.pass, k, ()) {
            Some(count) => count as u64,
            None => 0,
        }
    }
}

/// The reply of the shard's body to the request, under an admission of the pass which is then ended; or none where it isn't
/// admitted or the request isn't applied.
fn executed<S: Service>(
    board: &Board<S>,
    pass: &mut Pass<S>,
    k: ShardId,
    request: S::Request,
) -> Option<S::Reply>
    requires board { pass.old.board ≡ board.now }
    requires shard { k < board.now.limits.count }
    requires free { pass.old.held ≡ None }
    ensures board { pass.new.board ≡ board.now }
    ensures free { pass.new.held ≡ None }
{
    let Ok(mut permit) = board.admit(pass, k, Mode::Direct) else {
        return None;
    };
    match permit.body().apply(request) {
        Ok(reply) => {
            board.finish(pass, permit);
            Some(reply)
        }
        Err(_) => {
            board.finish(pass, permit);
            None
        }
    }
}

/// A body that has counted nothing, for each shard.
fn tallies(alloc: Global) -> Option<Vec<Tally>>
    ensures length { IfSome result (λ bodies. length bodies.items ≡ 4096) }
    ensures empty { IfSome result (λ bodies. All (λ body. body ≡ []) bodies.items) }
{
    let mut bodies = Vec::with_capacity(alloc, usize::from(SHARDS)).ok()?;
    for _body in 0..usize::from(SHARDS) {
        bodies.push(Tally::new()).ok()?;
    }
    Some(bodies)
}
