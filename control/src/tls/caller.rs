/// The other side of a TLS connection, by its certificate.
#[derive(Clone, Copy, Debug, PartialEq, Eq)]
pub enum Caller {
    /// A process: its certificate has the name of peers.
    Process,
    /// A client, whose certificate is from the same authority.
    Client,
}
