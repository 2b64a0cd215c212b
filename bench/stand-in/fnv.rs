//! FNV-1a in rapidhash's place, as 01 has it, with rapidhash's names. The Rust hashes more with it than 01 does. The
//! number of an enum's variant is one byte, as 01's kind is; other numbers go by their bytes, big-endian. Bytes that are 0
//! take the port's shorter way, so that neither side has the cheaper form of the hash.

pub mod fast {
    use std::hash::{BuildHasher, Hasher};

    const OFFSET_BASIS: u64 = 14_695_981_039_346_656_037;
    const PRIME: u64 = 1_099_511_628_211;
    const TWO_BYTES: u32 = 65_536;

    #[derive(Clone, Debug)]
    pub struct RapidHasher(u64);

    impl Default for RapidHasher {
        #[inline]
        fn default() -> Self {
            Self(OFFSET_BASIS)
        }
    }

    impl Hasher for RapidHasher {
        #[inline]
        fn write(&mut self, bytes: &[u8]) {
            for &byte in bytes {
                self.write_u8(byte);
            }
        }

        #[inline]
        fn write_u8(&mut self, byte: u8) {
            self.0 = (self.0 ^ u64::from(byte)).wrapping_mul(PRIME);
        }

        #[inline]
        fn write_u32(&mut self, number: u32) {
            if number < TWO_BYTES {
                self.0 = self.0.wrapping_mul(PRIME.wrapping_pow(2));
                self.write(&(number as u16).to_be_bytes());
                return;
            }
            self.write(&number.to_be_bytes());
        }

        #[inline]
        fn write_u64(&mut self, number: u64) {
            if number == 0 {
                self.0 = self.0.wrapping_mul(PRIME.wrapping_pow(8));
                return;
            }
            self.write_u32((number >> 32) as u32);
            self.write_u32(number as u32);
        }

        #[inline]
        fn write_isize(&mut self, variant: isize) {
            self.write_u8(variant as u8);
        }

        #[inline]
        fn finish(&self) -> u64 {
            self.0
        }
    }

    #[derive(Clone, Debug, Default)]
    pub struct GlobalState;

    impl BuildHasher for GlobalState {
        type Hasher = RapidHasher;

        #[inline]
        fn build_hasher(&self) -> RapidHasher {
            RapidHasher::default()
        }
    }
}
