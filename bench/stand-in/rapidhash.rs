//! Stand-in for the crate rapidhash, whose text is not at hand, with its names and about its cost: one wide multiplication
//! for each number that is written, and for each eight bytes. (The oracle's stand-in goes by bytes and would make the Rust
//! look slower than it is.)

pub mod fast {
    use std::hash::{BuildHasher, Hasher};

    const START: u64 = 0x9E37_79B9_7F4A_7C15;
    const FACTOR: u64 = 0xBF58_476D_1CE4_E5B9;
    const WORD_BYTES: usize = 8;

    #[derive(Clone, Debug)]
    pub struct RapidHasher(u64);

    impl Default for RapidHasher {
        #[inline]
        fn default() -> Self {
            Self(START)
        }
    }

    impl RapidHasher {
        #[inline]
        fn number(&mut self, number: u64) {
            let product = u128::from(self.0 ^ number) * u128::from(FACTOR);
            self.0 = product as u64 ^ (product >> 64) as u64;
        }
    }

    macro_rules! numbers {
        ($($name:ident: $number:ty),*) => {
            $(#[inline]
            fn $name(&mut self, number: $number) {
                self.number(number as u64);
            })*
        };
    }

    impl Hasher for RapidHasher {
        #[inline]
        fn write(&mut self, bytes: &[u8]) {
            for part in bytes.chunks(WORD_BYTES) {
                let mut word = [0; WORD_BYTES];
                word[..part.len()].copy_from_slice(part);
                self.number(u64::from_le_bytes(word));
            }
        }

        numbers!(write_u8: u8, write_u16: u16, write_u32: u32, write_u64: u64, write_usize: usize);
        numbers!(write_i8: i8, write_i16: i16, write_i32: i32, write_i64: i64, write_isize: isize);

        #[inline]
        fn finish(&self) -> u64 {
            self.0
        }
    }

    #[derive(Clone, Debug, Default)]
    pub struct GlobalState;

    impl BuildHasher for GlobalState {
        type Hasher = RapidHasher;

        #[inline]
        fn build_hasher(&self) -> RapidHasher {
            RapidHasher::default()
        }
    }
}
