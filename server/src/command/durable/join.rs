use crate::command::spec::Effect;
use crate::command::split::{count_of, Combine};
use crate::command::Fault;
use crate::resp::{Replies, MAX_REPLY};

/// The beginning of a part that doesn't know whether its write was made.
const UNKNOWN: &[u8] = b"-UNKNOWN ";

/// How the parts become an answer.
#[derive(Clone, Copy, Debug)]
pub(super) enum Join {
    /// One after another: each part answers one command, or there is one part for all.
    InOrder,
    /// The answer to one command with several keys, which has this effect. Each part answers for one key.
    Each(Combine, Effect),
}

impl Join {
    /// Returns how many bytes the parts may have. If they have more, the answer would be longer than a reply may be.
    pub(super) fn most(self) -> usize {
        match self {
            Join::InOrder => usize::MAX,
            Join::Each(..) => MAX_REPLY,
        }
    }

    /// Joins these parts to an answer, in their order, after an empty one. A part is missing if it was too large.
    pub(super) fn answer(self, parts: Vec<Option<Replies>>, empty: Replies) -> Replies {
        match self {
            Join::InOrder => in_order(parts, empty),
            Join::Each(joined, effect) => of_each((joined, effect), parts, empty),
        }
    }
}

fn in_order(parts: Vec<Option<Replies>>, empty: Replies) -> Replies {
    let mut parts = parts.into_iter().flatten();
    let first = parts.next().unwrap_or(empty);
    parts.fold(first, |mut all, part| {
        let mark = all.mark();
        all.take_over(part);
        // Only an answer to reads can be that long.
        if let Err(refused) = all.are_whole() {
            all.take_back(mark);
            all.error(Fault::from(refused));
        }
        all
    })
}

/// Joins the parts of one command, one for each of its keys. If one part is a refusal, so is the answer; but if other
/// parts may have been written, the answer says that the command is done in part.
fn of_each(
    (joined, effect): (Combine, Effect),
    parts: Vec<Option<Replies>>,
    mut answer: Replies,
) -> Replies {
    let count = parts.len();
    let mut parts: Vec<Replies> = parts.into_iter().flatten().collect();
    if let Some(place) = parts.iter().position(|it| it.error_count() > 0) {
        if effect.writes() && count > 1 && parts.iter().any(may_be_made) {
            answer.error(Fault::InPart);
            return answer;
        }
        return parts.swap_remove(place);
    }
    let (is_whole, mark) = (parts.len() == count, answer.mark());
    match joined {
        Combine::Ok => answer.ok(),
        Combine::Values => {
            answer.array(count);
            parts.iter().for_each(|it| answer.append(it.unsent()));
        }
        Combine::Sum => answer.count(parts.iter().map(|it| count_of(it.unsent())).sum()),
    }
    let fault = match answer.are_whole() {
        Err(refused) => Some(refused.into()),
        Ok(()) => (!is_whole || answer.is_too_large(mark)).then_some(Fault::ReplyTooLarge),
    };
    if let Some(fault) = fault {
        answer.take_back(mark);
        answer.error(fault);
    }
    answer
}

/// Returns whether this part's write was made, or may have been made.
fn may_be_made(part: &Replies) -> bool {
    part.error_count() == 0 || part.unsent().starts_with(UNKNOWN)
}
