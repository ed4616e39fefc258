/// The progress of a copy of a body that changes in the meantime.
pub(crate) struct CopyProgress {
    /// The least number of bytes that were left so far.
    least: u64,
    /// The greatest number of bytes that were left since then.
    greatest: u64,
    /// The number of bytes that have come since then.
    vain: u64,
}

impl CopyProgress {
    pub(crate) fn new() -> CopyProgress {
        CopyProgress {
            least: u64::MAX,
            greatest: 0,
            vain: 0,
        }
    }

    /// Notes that a piece of `came` bytes has come, and that `left` bytes are left. Returns whether the shard may stop
    /// for the rest. It may if at most one piece is left. It also may if the copy gets no closer, because calls change
    /// as much as is copied: then as many bytes have come in vain as were left.
    pub(crate) fn is_enough(&mut self, left: u64, came: u64, piece: usize) -> bool {
        if left < self.least {
            (self.least, self.greatest, self.vain) = (left, left, 0);
        } else {
            self.greatest = self.greatest.max(left);
            self.vain = self.vain.saturating_add(came);
        }
        left <= piece as u64 || self.vain >= self.greatest
    }
}

#[cfg(test)]
mod tests {
    use super::*;

    #[test]
    fn a_copy_is_far_enough_once_a_piece_is_left_or_it_gets_no_closer() {
        let mut progress = CopyProgress::new();
        assert!(!progress.is_enough(500, 10, 10) && !progress.is_enough(400, 10, 10));
        assert!(progress.is_enough(10, 10, 10));
        let mut progress = CopyProgress::new();
        let pieces = (0..).take_while(|it| !progress.is_enough(100 + it % 2, 10, 10));
        // One piece brings the copy closer. Then pieces come in vain until they have as many bytes as were left.
        assert_eq!(pieces.count(), 11);
    }

    #[test]
    fn a_copy_goes_on_after_a_rise_of_what_is_left() {
        let mut progress = CopyProgress::new();
        assert!(!progress.is_enough(1_000, 10, 10));
        // Calls changed much during a pause, and after that they change less than is copied.
        let lefts = (0..).map(|it| 3_000 - 8 * it);
        let mut least = lefts.take_while(|left| !progress.is_enough(*left, 10, 10));
        assert!(least.all(|left| left > 10) && progress.least <= 10);
    }
}
