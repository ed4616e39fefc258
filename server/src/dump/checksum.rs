/// A checksum of all bytes in their order, which detects files that were cut or changed by chance. It is FNV-1a of 64
/// bits.
#[derive(Clone, Copy, Debug)]
pub(super) struct DumpChecksum(u64);

impl DumpChecksum {
    /// Makes the checksum of no bytes.
    pub(super) fn new() -> DumpChecksum {
        DumpChecksum(0xcbf2_9ce4_8422_2325)
    }

    /// Takes these bytes in.
    pub(super) fn take(&mut self, bytes: &[u8]) {
        self.0 = bytes.iter().fold(self.0, |sum, byte| {
            (sum ^ u64::from(*byte)).wrapping_mul(0x0100_0000_01b3)
        });
    }

    /// Returns the sum.
    pub(super) fn sum(self) -> u64 {
        self.0
    }
}

#[cfg(test)]
mod tests {
    use super::*;

    #[test]
    fn sums_are_those_of_fnv() {
        let mut sum = DumpChecksum::new();
        sum.take(b"foo");
        sum.take(b"bar");
        assert_eq!(sum.sum(), 0x8594_4171_f739_67e8);
    }
}
