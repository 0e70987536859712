//! A small random number generator (splitmix64): the same numbers for the
//! same seed on every machine and for every version of the compiler.

pub struct Random {
    state: u64,
}

/// Scatters the bits of a number.
fn mix(number: u64) -> u64 {
    let once = (number ^ (number >> 30)).wrapping_mul(0xbf58_476d_1ce4_e5b9);
    let twice = (once ^ (once >> 27)).wrapping_mul(0x94d0_49bb_1331_11eb);
    twice ^ (twice >> 31)
}

impl Random {
    /// A generator for one of many streams of a seed, so that each job of a
    /// sequence has numbers of its own.
    pub fn new(seed: u64, stream: u64) -> Random {
        let start = mix(seed.wrapping_add(0x9e37_79b9_7f4a_7c15));
        Random {
            state: mix(start ^ stream.wrapping_mul(0xd134_2543_de82_ef95)),
        }
    }

    pub fn draw(&mut self) -> u64 {
        self.state = self.state.wrapping_add(0x9e37_79b9_7f4a_7c15);
        mix(self.state)
    }

    /// A number below the bound, which is not 0. The slight favour for low
    /// numbers does no harm here.
    pub fn below(&mut self, bound: usize) -> usize {
        (self.draw() % bound as u64) as usize
    }

    /// A number from low to high, both included.
    pub fn between(&mut self, low: usize, high: usize) -> usize {
        low + self.below(high - low + 1)
    }

    /// True in so many of a hundred cases.
    pub fn chance(&mut self, percent: usize) -> bool {
        self.below(100) < percent
    }

    pub fn pick<T: Copy>(&mut self, list: &[T]) -> T {
        list[self.below(list.len())]
    }

    pub fn shuffle<T>(&mut self, list: &mut [T]) {
        for last in (1..list.len()).rev() {
            let other = self.below(last + 1);
            list.swap(last, other);
        }
    }
}
