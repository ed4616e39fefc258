/// What a shard gives its server to do, as that server measures it.
#[derive(Clone, Copy, Debug, Default, PartialEq, Eq)]
pub struct ShardLoad {
    /// How many requests a second it answers, smoothed.
    pub requests: u32,
    /// How many KiB its base and its log have in the store; 0 if a service keeps its body elsewhere.
    pub kibibytes: u32,
}

impl ShardLoad {
    /// Returns its weight: one, another one for each request a second, and another one for each MiB.
    pub fn weight(self) -> u64 {
        1 + u64::from(self.requests) + u64::from(self.kibibytes / 1_024)
    }
}
