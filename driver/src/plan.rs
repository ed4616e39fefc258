//! A plan of moves, which is made with a proved board that is opened for it.
use crate::{CommandFault, Refused, ServerState};
use durkenzo::{Board, Plan, PlanFault, ServerId, Stand, MAX_SERVER};
use std::fmt::Display;

/// Plans the moves of the server's shards, or of the vacant shards if `server` is 0, with these settings. `stands` and
/// `states` are the present ones. Nothing is moved.
pub(crate) fn planned(
    line: &str,
    stands: &[Stand],
    states: &[ServerState],
    server: u16,
) -> Result<Plan, Refused> {
    let bodies = stands.iter().map(|_| ());
    let (board, _) = Board::by_settings(line, bodies).map_err(unplanned)?;
    let control = board.control();
    for (shard, stand) in board.shards().zip(stands) {
        control.restore(shard, *stand).map_err(unplanned)?;
    }
    // A server that has failed counts for the caps by which others were approved before.
    for has_failed in [false, true] {
        for (server, state) in ServerId::all(MAX_SERVER).zip(states) {
            if (*state == ServerState::Failed) == has_failed {
                have_stand(&control, server, *state).map_err(unplanned)?;
            }
        }
    }
    let plan = match server {
        0 => control.plan_assign(),
        server => ServerId::new(server)
            .map_err(|_| PlanFault::UnknownServer)
            .and_then(|server| control.plan_drain(server)),
    };
    plan.map_err(|fault| match fault {
        PlanFault::UnknownServer => Refused::Judged(CommandFault::UnknownServer),
        other => unplanned(other),
    })
}

/// Makes the steps that lead a server from up to this state.
fn have_stand(
    control: &durkenzo::Control<()>,
    server: ServerId,
    state: ServerState,
) -> Result<(), durkenzo::RestartFault> {
    let made = match state {
        ServerState::Up => Ok(()),
        ServerState::Failed => control.fail(server),
        ServerState::Asked | ServerState::Approved | ServerState::Stopped => control.ask(server),
    };
    made?;
    if state.is_restarting() {
        control.approve(server)?;
    }
    match state {
        ServerState::Stopped => control.stopped(server),
        ServerState::Up | ServerState::Asked | ServerState::Approved | ServerState::Failed => {
            Ok(())
        }
    }
}

/// Returns the fault that no plan can be made from the reading.
fn unplanned(why: impl Display) -> Refused {
    Refused::Damaged(format!("no plan is made of it: {why}"))
}

#[cfg(test)]
mod tests {
    use super::*;
    use durkenzo::{Move, ShardId};

    const LINE: &str = r#"{"version": 2, "bounds": ["", "m"], "groups": [{"limit": 2, "down": 2}], "ops": 1,
        "kept": 9, "ceiling": 1000, "workers": 1, "domains": [{"domain": 0, "down": 1}],
        "servers": [{"id": 1, "domain": 0, "capacity": 2}, {"id": 2, "domain": 0, "capacity": 1},
        {"id": 3, "domain": 0, "capacity": 2}],
        "shards": [{"group": 0, "load": 1, "cap": 1}, {"group": 0, "load": 1, "cap": 1}]}"#;

    #[test]
    fn a_plan_goes_by_stands_and_states() {
        let plan = |stands: [Stand; 2], states: [ServerState; 3], server| {
            planned(LINE, &stands, &states, server)
        };
        let up = [ServerState::Up; 3];
        let owned = [Stand::Serving(1), Stand::Serving(1)];
        let moved = |shard, server| Move {
            shard: ShardId::new(shard).unwrap(),
            server: ServerId::new(server).unwrap(),
        };
        let found = plan(owned, up, 1).unwrap();
        let wanted = vec![moved(0, 2), moved(1, 3)];
        assert_eq!((found.moves, found.left), (wanted, vec![]));
        let away = [ServerState::Approved, ServerState::Up, ServerState::Failed];
        let found = plan(owned, away, 1).unwrap();
        let left = vec![ShardId::new(1).unwrap()];
        assert_eq!((found.moves, found.left), (vec![moved(0, 2)], left));
        let found = plan([Stand::Vacant, Stand::Paused(2)], up, 0).unwrap();
        assert_eq!((found.moves, found.left), (vec![moved(0, 1)], vec![]));
        assert!(matches!(
            plan(owned, up, 9),
            Err(Refused::Judged(CommandFault::UnknownServer))
        ));
    }
}
