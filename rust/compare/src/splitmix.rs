//! SplitMix64, written from its public description; it also draws the operands.

pub struct SplitMix64(pub u64);

impl SplitMix64 {
    pub fn draw(&mut self) -> u64 {
        self.0 = self.0.wrapping_add(0x9e37_79b9_7f4a_7c15);
        let mut z = self.0;
        z = (z ^ (z >> 30)).wrapping_mul(0xbf58_476d_1ce4_e5b9);
        z = (z ^ (z >> 27)).wrapping_mul(0x94d0_49bb_1331_11eb);
        z ^ (z >> 31)
    }

    /// A number below `bound`, nearly evenly.
    pub fn below(&mut self, bound: u64) -> u64 {
        self.draw() % bound
    }
}

/// The generator's start for each measurement.
pub const START: u64 = 0x2545_f491_4f6c_dd1d;

/// A state and the draws that are published for it.
pub const PUBLISHED: (u64, [u64; 5]) = (
    1234567,
    [
        6457827717110365317,
        3203168211198807973,
        9817491932198370423,
        4593380528125082431,
        16408922859458223821,
    ],
);

/// States at the edges: 0, all ones, those that the step takes to 0 and to all ones, and each single bit.
pub fn edges() -> Vec<u64> {
    let gamma = 0x9e37_79b9_7f4a_7c15u64;
    let mut states = vec![0, u64::MAX, START, gamma, gamma.wrapping_neg(), !gamma];
    states.extend((0..64).flat_map(|i| [1 << i, !(1 << i)]));
    states
}
