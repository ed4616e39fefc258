/// The addresses of a server.
#[derive(Clone, Debug, Default, PartialEq, Eq)]
pub struct Addresses {
    /// The address for other servers.
    pub servers: String,
    /// The address for clients.
    pub clients: String,
}
