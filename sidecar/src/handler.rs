/// A request that an application answers, of a shard.
#[derive(Clone, Copy, Debug, PartialEq, Eq)]
pub(crate) enum Handler {
    /// The shard will come here. The application needn't do anything.
    PrepareAdd,
    /// The shard comes here.
    Add,
    /// The answer's body is what the next owner's application gets.
    PrepareDrop,
    /// The shard belongs to another server.
    Drop,
    /// A client's call.
    Call,
}

impl Handler {
    /// All handlers.
    pub(crate) const ALL: [Handler; 5] = [
        Handler::PrepareAdd,
        Handler::Add,
        Handler::PrepareDrop,
        Handler::Drop,
        Handler::Call,
    ];

    /// Returns the last word of the handler's path.
    pub(crate) fn word(self) -> &'static str {
        match self {
            Handler::PrepareAdd => "prepare_add",
            Handler::Add => "add",
            Handler::PrepareDrop => "prepare_drop",
            Handler::Drop => "drop",
            Handler::Call => "call",
        }
    }
}
