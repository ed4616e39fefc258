use crate::frame::Request;
use crate::Safety;
use durkenzo_control::links::{Admission, Identity, Terms, FIRST_TABLE, NO_SERVER};
use durkenzo_control::tls::{Caller, FleetTls};

/// How a process of a fleet, or a client, introduces itself to others.
#[derive(Clone, Debug)]
pub(crate) struct Introduction {
    pub(crate) terms: Terms,
    pub(crate) tls: Option<FleetTls>,
}

/// A process or a client that has introduced itself.
#[derive(Clone, Copy, Debug, PartialEq, Eq)]
pub(crate) enum Guest {
    /// The process of this server.
    Server(u16),
    Client,
}

impl Introduction {
    /// Returns the introduction of a client, to a fleet whose settings have this checksum.
    pub(crate) fn of_client(safety: &Safety, settings: u64) -> Introduction {
        Introduction::of_process(safety, settings, (NO_SERVER, 0))
    }

    /// Returns the introduction of the process with this number. The process runs as this server.
    pub(crate) fn of_process(
        safety: &Safety,
        settings: u64,
        (server, process): (u16, u64),
    ) -> Introduction {
        let identity = Identity {
            server,
            settings,
            process,
            table: FIRST_TABLE,
        };
        let terms = Terms {
            identity,
            secret: safety.secret.clone(),
            // Clients come to the same port, with certificates of their own.
            tls: None,
            admits: Admission::Clients,
        };
        let tls = safety.tls.clone();
        Introduction { terms, tls }
    }
}

impl Guest {
    /// Returns the guest that sends this greeting, with this certificate if there is TLS. If the certificate is that of
    /// a client, the guest isn't a server.
    pub(crate) fn of(identity: Identity, caller: Option<Caller>) -> Guest {
        match (identity.server, caller) {
            (NO_SERVER, _) | (_, Some(Caller::Client)) => Guest::Client,
            (server, Some(Caller::Process) | None) => Guest::Server(server),
        }
    }

    /// Returns whether the guest may send this request. A server must not speak for another server, and a client must
    /// not speak for any.
    pub(crate) fn may_ask(self, request: &Request<'_>) -> bool {
        let is_server = self != Guest::Client;
        match request {
            Request::Call(call) if call.from != NO_SERVER => self == Guest::Server(call.from),
            Request::Call(call) => is_server || call.hops == 0,
            Request::Hand(frame) => self == Guest::Server(frame.hand.server),
            Request::Copy { name, .. } => self == Guest::Server(name.server),
            Request::Command { is_passed_on, .. } => is_server || !is_passed_on,
            Request::Routes => true,
        }
    }
}

#[cfg(test)]
mod tests {
    use super::*;
    use crate::copy_name::CopyName;
    use crate::frame::{CallFrame, HandFrame};
    use durkenzo_store_sys::HandOver;

    #[test]
    fn nobody_speaks_for_another_server() {
        let call = |from, hops| {
            Request::Call(CallFrame {
                shard: 0,
                from,
                hops,
                revision: 1,
                budget: 1,
                request: b"",
            })
        };
        let command = |is_passed_on| Request::Command {
            is_passed_on,
            words: b"",
        };
        let copy = Request::Copy {
            shard: 0,
            generation: 1,
            name: CopyName {
                server: 2,
                joined: 1,
                count: 0,
            },
            at: 0,
        };
        let hand = Request::Hand(HandFrame {
            shard: 0,
            hand: HandOver {
                joined: 1,
                generation: 1,
                server: 2,
            },
            copy: None,
            at: 0,
            is_last: true,
            bytes: b"",
        });
        for (request, client, second, third) in [
            (call(0, 0), true, true, true),
            (call(0, 1), false, true, true),
            (call(2, 0), false, true, false),
            (call(2, 1), false, true, false),
            (hand, false, true, false),
            (copy, false, true, false),
            (command(false), true, true, true),
            (command(true), false, true, true),
            (Request::Routes, true, true, true),
        ] {
            let may =
                [Guest::Client, Guest::Server(2), Guest::Server(3)].map(|it| it.may_ask(&request));
            assert_eq!(may, [client, second, third], "{request:?}");
        }
    }
}
