use super::{Fields, WireFault};
use durkenzo_store::Revision;
use std::fmt::Debug;

/// The most bytes of the reason for which a request isn't done.
pub const MAX_REASON: usize = 4 << 10;

/// Why a request isn't done, as one process tells another.
///
/// A reason is sent as a code from 1 to 255 and its details. All versions of a host give a code the same meaning.
pub trait Reason: Clone + Debug + PartialEq + Send + 'static {
    /// Returns the reason that the process ends, and didn't do the request.
    fn stopped() -> Self;

    /// Returns the reason that another server executes the request, by the record at this revision.
    fn moved(revision: Revision) -> Self;

    /// Returns the reason that the request may have been done, with this explanation.
    fn unknown(why: String) -> Self;

    /// Returns the revision of the record by which the client's process looks again who executes the request. It
    /// returns one if the request wasn't done and another process may do it.
    fn looks_again(&self) -> Option<Revision>;

    /// Returns its code.
    fn code(&self) -> u8;

    /// Writes its details, in at most [`MAX_REASON`] bytes.
    fn write(&self, out: &mut Vec<u8>);

    /// Reads the reason with this code from its details, all of which it must take.
    ///
    /// # Errors
    ///
    /// [`WireFault::Answer`] if there is no such code; or the fault of details that don't belong to the code. Then the
    /// link ends.
    fn read(code: u8, details: Fields<'_>) -> Result<Self, WireFault>;
}
