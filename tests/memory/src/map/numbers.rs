ghost use Rattle.std.specs.Prelude.{◌<◌};

// A small generator of numbers: a linear congruence, of which the high bits are taken.
#[derive(Drop)]
pub(crate) struct Numbers {
    state: u64,
}

impl Numbers {
    pub(crate) fn new(seed: u64) -> Numbers {
        Numbers { state: seed }
    }

    pub(crate) fn below(&mut self, bound: u64) -> u64
        requires { 0 < bound }
        ensures { result < bound }
    {
        self.state = self
            .state
            .wrapping_mul(6_364_136_223_846_793_005)
            .wrapping_add(1_442_695_040_888_963_407);
        (self.state >> 33) % bound
    }

    // Bytes of four different values.
    pub(crate) fn letters(&mut self) -> [u8; 9] {
        let mut letters = [b'a'; 9];
        for letter in &mut letters {
            *letter = b'a' + self.below(4) as u8;
        }
        letters
    }
}
