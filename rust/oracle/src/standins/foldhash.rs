//! Stands in for the crate foldhash: a quick hasher. Only look-ups by key reach the planner, so no answer depends on it; the times do, a
//! little, so it folds products as the named crate does.

pub mod fast {
    use std::hash::{BuildHasher, Hasher};

    #[derive(Clone, Copy, Debug, Default)]
    pub struct RandomState;

    impl BuildHasher for RandomState {
        type Hasher = Fold;
        fn build_hasher(&self) -> Fold {
            Fold(0x243f_6a88_85a3_08d3)
        }
    }

    pub struct Fold(u64);

    impl Fold {
        fn mix(&mut self, word: u64) {
            let product = u128::from(self.0 ^ word) * u128::from(0x9e37_79b9_7f4a_7c15_u64);
            self.0 = (product as u64) ^ ((product >> 64) as u64);
        }
    }

    impl Hasher for Fold {
        fn write(&mut self, bytes: &[u8]) {
            bytes.iter().for_each(|byte| self.mix((*byte).into()));
        }
        fn write_u8(&mut self, n: u8) {
            self.mix(n.into());
        }
        fn write_u16(&mut self, n: u16) {
            self.mix(n.into());
        }
        fn write_u32(&mut self, n: u32) {
            self.mix(n.into());
        }
        fn write_u64(&mut self, n: u64) {
            self.mix(n);
        }
        fn write_usize(&mut self, n: usize) {
            self.mix(n as u64);
        }
        fn finish(&self) -> u64 {
            self.0
        }
    }
}
