//! A digest of bytes, CRC-64 as in ECMA-182 with the bits reflected: two strings of bytes that differ in one byte, or in a stretch of
//! up to eight, have different digests.

const POLYNOMIAL: u64 = 0xc96c_5795_d787_0f42;

/// What each byte does to the digest.
const TABLE: [u64; 256] = table();

const fn table() -> [u64; 256] {
    let mut table = [0; 256];
    let mut byte = 0;
    while byte < 256 {
        table[byte] = after_eight_bits(byte as u64);
        byte += 1;
    }
    table
}

const fn after_eight_bits(mut value: u64) -> u64 {
    let mut bit = 0;
    while bit < 8 {
        let odd = value & 1 == 1;
        value >>= 1;
        if odd {
            value ^= POLYNOMIAL;
        }
        bit += 1;
    }
    value
}

/// The digest of the bytes so far.
#[derive(Clone, Copy, Debug, PartialEq, Eq)]
pub struct Digest(u64);

impl Digest {
    pub const EMPTY: Digest = Digest(0);

    pub fn of(bytes: &[u8]) -> Digest {
        let mut digest = Digest::EMPTY;
        digest.add(bytes);
        digest
    }

    pub fn add(&mut self, bytes: &[u8]) {
        let step = |value: u64, byte: &u8| TABLE[usize::from(value as u8 ^ byte)] ^ (value >> 8);
        self.0 = !bytes.iter().fold(!self.0, step);
    }

    pub fn number(self) -> u64 {
        self.0
    }

    pub fn from_number(number: u64) -> Digest {
        Digest(number)
    }
}

#[cfg(test)]
mod tests {
    use super::*;

    #[test]
    fn the_published_check_value() {
        assert_eq!(Digest::of(b"123456789").number(), 0x995d_c9bb_df19_39fa);
        let mut digest = Digest::of(b"1234");
        digest.add(b"");
        digest.add(b"56789");
        assert_eq!(digest, Digest::of(b"123456789"));
    }
}
