/// How much room the data of a store takes, as one of the store's members says.
#[derive(Clone, Copy, Debug, Default, PartialEq, Eq)]
pub struct StoreSize {
    /// The bytes of the member's file, which doesn't shrink by itself.
    pub file: u64,
    /// The bytes of the file that hold something. Values that were overwritten or deleted count until history is
    /// compacted.
    pub used: u64,
    /// The most bytes that the file may have, if the member says so.
    pub quota: Option<u64>,
}
