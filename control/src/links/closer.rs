/// Ends a connection, so that its readers and writers notice.
pub trait Closer: Send + Sync {
    /// Ends the connection in both directions. It must not wait, and may be called again.
    fn end(&self);
}
