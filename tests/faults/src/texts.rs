//! What the tests of this crate share.
use sm_ownership::Record;
use sm_ranges::Stand;
use std::alloc::Global;
use std::error::Error;
use std::process::Abort;

/// Fails unless each of the errors prints the text beside it.
pub(crate) fn assert_texts<E: Error>(rt: &impl Abort, alloc: Global, cases: &[(E, &str)]) {
    for (error, text) in cases {
        let printed = format!(in alloc; "{error}").ok().expect(rt, "memory");
        assert_eq!(*rt; printed.as_str(), *text);
    }
}

/// A record that no text shows.
pub(crate) fn record() -> Record {
    Record {
        stand: Stand::Vacant,
        admitted: false,
        generation: 1,
    }
}
