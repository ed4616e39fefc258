use super::client::read_all;
use super::gateway::Gateway;
use super::pulse::QUIET;
use super::race::before;
use super::wire::{WatchRequest, WatchResult};
use crate::{KeyChange, Reading, Revision, Seen, Watcher};
use std::sync::Arc;
use std::time::Duration;

/// The pause before a watch that ended is asked for again.
const PAUSE: Duration = Duration::from_millis(100);

/// Why a watch must be asked for again.
enum Ended {
    /// The member doesn't answer any more.
    Lost,
    /// The changes after the moment were compacted.
    Forgotten,
}

/// Tells the reading, and then each change after it, as long as it may.
pub(super) async fn watch(
    gateway: Arc<Gateway>,
    prefix: Vec<u8>,
    reading: Reading,
    mut watcher: Watcher,
) {
    let mut moment = reading.revision;
    watcher(Seen::All(reading));
    loop {
        let member = gateway.current();
        let ended = follow(&gateway, member, &prefix, &mut moment, &mut watcher).await;
        if let Ended::Forgotten = ended {
            if let Ok(reading) = read_all(&gateway, &prefix).await {
                moment = reading.revision;
                watcher(Seen::All(reading));
            }
        }
        gateway.pass_over(member);
        gateway.wait(PAUSE).await;
    }
}

/// Follows this member from this moment on, until its stream ends.
async fn follow(
    gateway: &Gateway,
    member: usize,
    prefix: &[u8],
    moment: &mut Revision,
    watcher: &mut Watcher,
) -> Ended {
    let asked = WatchRequest::from(prefix, *moment);
    let Ok(mut stream) = gateway.watch(member, &asked).await else {
        return Ended::Lost;
    };
    loop {
        let silence = until_lost(gateway, member, prefix);
        let found = before(stream.next::<WatchResult>(), silence).await;
        let Some(Ok(found)) = found else {
            return Ended::Lost;
        };
        if found.canceled {
            return Ended::Forgotten;
        }
        let changes = found.events.into_iter().map(KeyChange::from);
        let changes: Vec<KeyChange> = changes.filter(|it| it.revision > *moment).collect();
        if let Some(last) = changes.last() {
            *moment = last.revision.max(*moment);
            watcher(Seen::Changes(*moment, changes));
        }
    }
}

/// Waits until a member with a silent stream isn't well, because a member that hangs with its connection open ends no
/// stream.
async fn until_lost(gateway: &Gateway, member: usize, key: &[u8]) {
    gateway.wait(QUIET).await;
    while gateway.is_well(member, key).await {}
}
