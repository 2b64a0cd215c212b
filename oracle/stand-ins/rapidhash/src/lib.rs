//! Stand-in for the crate rapidhash: the same names over another hash. The
//! comparison leaves hashes and table places out.

pub mod fast {
    use std::hash::{BuildHasher, Hasher};

    const START: u64 = 0x9E37_79B9_7F4A_7C15;
    const FACTOR: u64 = 0xBF58_476D_1CE4_E5B9;

    #[derive(Clone, Debug)]
    pub struct RapidHasher(u64);

    impl Default for RapidHasher {
        fn default() -> Self {
            Self(START)
        }
    }

    impl Hasher for RapidHasher {
        fn write(&mut self, bytes: &[u8]) {
            for byte in bytes {
                self.write_u64(u64::from(*byte));
            }
        }

        fn write_u64(&mut self, number: u64) {
            self.0 = (self.0 ^ number).wrapping_mul(FACTOR).rotate_left(29);
        }

        fn finish(&self) -> u64 {
            (self.0 ^ (self.0 >> 32)).wrapping_mul(FACTOR)
        }
    }

    #[derive(Clone, Debug, Default)]
    pub struct GlobalState;

    impl BuildHasher for GlobalState {
        type Hasher = RapidHasher;

        fn build_hasher(&self) -> RapidHasher {
            RapidHasher::default()
        }
    }
}
