use std::io::{self, Read, Write};

/// A state machine of a user's own service, of which each shard has one. Its requests lie in the shard's log, in one
/// order, and each is made exactly once. Any server makes the machine anew, from a snapshot and the requests after it.
///
/// So the machine must be deterministic: what `apply` answers and leaves may depend only on the machine, the place and
/// the request. If a request needs the time or chance, its caller puts them into the request. A machine that panics is
/// as damaged content of the store: its shard answers nothing more until another version of it is there.
///
/// ```
/// use durkenzo_driver::Machine;
/// use std::io::{self, Read, Write};
///
/// /// Adds what requests say, and tells the sum.
/// #[derive(Default)]
/// struct Sum(u64);
///
/// impl Machine for Sum {
///     fn apply(&mut self, _place: u64, request: &[u8]) -> Vec<u8> {
///         self.0 = self.0.wrapping_add(request.iter().copied().map(u64::from).sum());
///         self.read(b"")
///     }
///
///     fn read(&self, _request: &[u8]) -> Vec<u8> {
///         self.0.to_string().into_bytes()
///     }
///
///     fn snapshot(&self, out: &mut impl Write) -> io::Result<()> {
///         out.write_all(&self.0.to_be_bytes())
///     }
///
///     fn restore(input: &mut impl Read) -> io::Result<Sum> {
///         let mut bytes = [0; 8];
///         input.read_exact(&mut bytes)?;
///         Ok(Sum(u64::from_be_bytes(bytes)))
///     }
/// }
/// ```
pub trait Machine: Default + Send + 'static {
    /// Makes this request, which is at this place among those of its shard: 0 for the first, and one more for each that
    /// follows. Returns the answer. The shard keeps the last answer of each client, and tells it again if the client
    /// asks again, so an answer should be short.
    fn apply(&mut self, place: u64, request: &[u8]) -> Vec<u8>;

    /// Answers a request that only reads.
    fn read(&self, request: &[u8]) -> Vec<u8>;

    /// Writes the machine. The same machine must always write the same bytes: a map in the order of its keys, for
    /// example.
    ///
    /// # Errors
    ///
    /// As `out` says. It takes everything, unless memory is refused.
    fn snapshot(&self, out: &mut impl Write) -> io::Result<()>;

    /// Reads a machine that [`Machine::snapshot`] wrote.
    ///
    /// # Errors
    ///
    /// If the bytes aren't such a machine. Then the shard's content counts as damaged.
    fn restore(input: &mut impl Read) -> io::Result<Self>;
}
