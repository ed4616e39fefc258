//! Whether the processes that are there accept this one.
use super::super::links_inner::LinksInner;
use super::super::{Host, NotAccepted, OTHER_SECRET, VERSION};
use super::channel::connect;
use durkenzo_driver::Member;
use std::io;
use std::time::{Duration, Instant};

/// The longest time for asking other processes.
const ASK_OTHERS: Duration = Duration::from_secs(3);

/// Asks the processes that are there, one after another, until one accepts this process. `ask` gets a server, its
/// address, and how much time is left. The caller must answer others already: so of two that begin together and don't
/// accept each other, only the one that joined earlier stays.
///
/// # Errors
///
/// If a process that joined earlier refuses this one, and none that answers in time accepts it. This process should
/// leave then. A refusal by a process that joined later says nothing, because that one asks this process in turn.
pub fn be_accepted<E>(
    member: &Member,
    ask: impl Fn(u16, &str, Duration) -> Result<(), E>,
    is_refusal: impl Fn(&E) -> bool,
) -> Result<(), NotAccepted<E>> {
    let (members, own, joined) = (member.members(), member.server(), member.joined());
    let (end, mut refused) = (Instant::now() + ASK_OTHERS, None);
    for (server, other) in members.iter().filter(|it| *it.0 != own) {
        let left = end.saturating_duration_since(Instant::now());
        if left.is_zero() {
            break;
        }
        let address = &other.addresses.servers;
        match ask(*server, address, left) {
            Ok(()) => return Ok(()),
            Err(why) if is_refusal(&why) && other.joined < joined => {
                let (server, address) = (*server, address.clone());
                refused = Some(NotAccepted {
                    server,
                    address,
                    why,
                });
            }
            // It joined later. Or it may have failed, and its lease hasn't ended yet.
            Err(_) => {}
        }
    }
    refused.map_or(Ok(()), Err)
}

/// Asks as [`be_accepted`] does, by a connection of its own to each process. Only another secret counts as a refusal:
/// settings may be other ones for a moment, while all processes adopt new ones.
pub(in super::super) fn links_accepted<H: Host>(
    inner: &LinksInner<H>,
) -> Result<(), NotAccepted<io::Error>> {
    let terms = inner.terms();
    let ask = |server, address: &str, _| {
        let mut channel = connect(&terms, address)?;
        channel.greet(&terms, server, VERSION).map(drop)
    };
    let is_refusal = |error: &io::Error| error.to_string() == OTHER_SECRET;
    be_accepted(&inner.member, ask, is_refusal)
}

#[cfg(test)]
mod tests {
    use super::*;
    use durkenzo_driver::Addresses;
    use durkenzo_store::{Embedded, Store};
    use std::sync::Arc;

    fn member(store: &Arc<dyn Store>, server: u16) -> Member {
        let addresses = Addresses {
            servers: format!("at-{server}"),
            clients: String::new(),
        };
        let lease = Duration::from_secs(60);
        Member::join(store.clone(), server, addresses, lease, Box::new(|| {})).unwrap()
    }

    /// Asks as this member. Some servers accept it, some refuse it, and the others don't answer. Returns the server
    /// because of which the member must leave.
    fn refusing(member: &Member, accept: &[u16], refuse: &[u16]) -> Option<u16> {
        let ask = |server: u16, address: &str, _| {
            assert_eq!(address, format!("at-{server}"));
            match accept.contains(&server) {
                true => Ok(()),
                false => Err(refuse.contains(&server)),
            }
        };
        let refused = be_accepted(member, ask, |it| *it);
        refused.err().map(|it| it.server)
    }

    #[test]
    fn only_who_joined_earlier_refuses_and_one_who_accepts_is_enough() {
        let store: Arc<dyn Store> = Arc::new(Embedded::in_memory());
        let [earliest, middle, latest] = [2, 1, 3].map(|it| member(&store, it));
        assert_eq!(refusing(&earliest, &[], &[1, 3]), None);
        assert_eq!(refusing(&middle, &[], &[2]), Some(2));
        assert_eq!(refusing(&middle, &[], &[3]), None);
        assert_eq!(refusing(&latest, &[], &[1]), Some(1));
        assert_eq!(refusing(&latest, &[2], &[1]), None);
        assert_eq!(refusing(&latest, &[], &[]), None);
    }
}
