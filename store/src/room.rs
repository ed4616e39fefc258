/// The room that a transaction may use if the disk is nearly full.
#[derive(Clone, Copy, Debug, Default, PartialEq, Eq)]
pub enum Room {
    /// The free room.
    #[default]
    Free,
    /// Also the store's reserve: for a transaction that makes room, or takes it only for a short time.
    KeptBack,
}
