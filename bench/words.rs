//! The random words of a seed, which allocators draw.

const MULTIPLIER: u64 = 6_364_136_223_846_793_005;

/// The generator PCG XSH RR 64/32.
pub struct Words {
    state: u64,
    increment: u64,
}

fn mixed(state: u64) -> u32 {
    let shifted = (((state >> 18) ^ state) >> 27) as u32;
    shifted.rotate_right((state >> 59) as u32)
}

impl Words {
    pub fn new(seed: u64) -> Words {
        let mut parts = [0; 4];
        let mut state = seed;
        for part in &mut parts {
            state = state.wrapping_mul(MULTIPLIER).wrapping_add(11_634_580_027_462_260_723);
            *part = u64::from(mixed(state));
        }
        let increment = (parts[2] | parts[3] << 32) | 1;
        let state = (parts[0] | parts[1] << 32).wrapping_add(increment);
        let mut words = Words { state, increment };
        words.step();
        words
    }

    fn step(&mut self) {
        self.state = self.state.wrapping_mul(MULTIPLIER).wrapping_add(self.increment);
    }

    pub fn next(&mut self) -> u32 {
        let state = self.state;
        self.step();
        mixed(state)
    }
}
