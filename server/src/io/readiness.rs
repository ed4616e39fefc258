use mio::event::Event;

/// The news of an event about a client's stream.
#[derive(Clone, Copy, Debug, Default)]
pub struct Readiness {
    /// Whether bytes may have come.
    pub is_readable: bool,
    /// Whether the client sends no more.
    pub is_half_closed: bool,
    /// Whether the client has left, so that no answer reaches it.
    pub has_left: bool,
}

impl From<&Event> for Readiness {
    fn from(event: &Event) -> Readiness {
        let has_left = event.is_write_closed() || event.is_error();
        let is_half_closed = event.is_read_closed() || has_left;
        Readiness {
            is_readable: event.is_readable(),
            is_half_closed,
            has_left,
        }
    }
}
