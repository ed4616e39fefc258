use std::sync::{Arc, Weak};

/// The client or process that asked for something. Work that hasn't begun is dropped if nobody waits for it.
#[derive(Clone, Debug, Default)]
pub struct Caller(Option<Weak<()>>);

impl Caller {
    /// Makes a client, who is there as long as its connection holds this.
    pub(super) fn client(presence: &Arc<()>) -> Caller {
        Caller(Some(Arc::downgrade(presence)))
    }

    /// Returns whether it still waits. Another process always does.
    pub fn is_there(&self) -> bool {
        self.0.as_ref().is_none_or(|it| it.strong_count() > 0)
    }
}

#[cfg(test)]
mod tests {
    use super::*;

    #[test]
    fn a_client_waits_as_long_as_its_connection_is_there() {
        let presence = Arc::default();
        let caller = Caller::client(&presence);
        assert!(caller.is_there() && caller.clone().is_there());
        drop(presence);
        assert!(!caller.is_there() && Caller::default().is_there());
    }
}
