//! Runs of bits. Bits are packed eight to a byte, first bit highest.

/// The bits of some bytes, in order.
pub fn unpack(bytes: &[u8]) -> Vec<bool> {
    bytes
        .iter()
        .flat_map(|&byte| spell(byte.into(), 8))
        .collect()
}

/// The bytes of a run of bits; the last byte's spare bits are zero.
pub fn pack(bits: &[bool]) -> Vec<u8> {
    bits.chunks(8).map(pack_byte).collect()
}

fn pack_byte(bits: &[bool]) -> u8 {
    (0..8).fold(0, |byte, i| {
        byte << 1 | u8::from(bits.get(i) == Some(&true))
    })
}

/// The number that a run of at most 64 bits spells, most significant bit first.
pub fn value(bits: &[bool]) -> u64 {
    bits.iter()
        .fold(0, |number, &bit| number << 1 | u64::from(bit))
}

/// A number in so many bits, most significant bit first.
pub fn spell(number: u64, width: usize) -> Vec<bool> {
    let bit = |i: usize| number.checked_shr(i as u32).unwrap_or(0) & 1 == 1;
    (0..width).rev().map(bit).collect()
}

/// True if the number is below 2 to the width.
pub fn fits(number: u64, width: usize) -> bool {
    number.checked_shr(width as u32).unwrap_or(0) == 0
}

/// Takes the elements of a block one after another.
pub struct Taker<'a> {
    bits: &'a [bool],
    pub at: usize,
}

impl<'a> Taker<'a> {
    pub fn new(bits: &'a [bool]) -> Self {
        Taker { bits, at: 0 }
    }

    /// The next run of bits.
    pub fn run(&mut self, width: usize) -> &'a [bool] {
        self.at += width;
        &self.bits[self.at - width..self.at]
    }

    /// The next run of bits, as a number.
    pub fn number(&mut self, width: usize) -> u64 {
        value(self.run(width))
    }

    /// The next run of bits, as a number, if it is all there.
    pub fn next(&mut self, width: usize) -> Option<u64> {
        (width <= self.rest().len()).then(|| self.number(width))
    }

    /// All that comes after what was taken.
    pub fn rest(&self) -> &'a [bool] {
        &self.bits[self.at..]
    }
}

#[cfg(test)]
mod tests {
    use super::*;

    #[test]
    fn first_bit_is_highest() {
        let bits = unpack(&[0x80, 0x01]);
        assert!(bits[0] && bits[15]);
        assert_eq!(bits.iter().filter(|&&bit| bit).count(), 2);
    }

    #[test]
    fn spare_bits_are_zero() {
        assert_eq!(pack(&[true; 11]), [0xFF, 0xE0]);
        assert_eq!(pack(&[]), []);
    }

    #[test]
    fn numbers_cross_byte_edges() {
        assert_eq!(value(&unpack(&[0x12, 0x34])[4..12]), 0x23);
        assert_eq!(spell(0b101, 4), [false, true, false, true]);
        assert!(fits(15, 4) && !fits(16, 4) && !fits(1, 0) && fits(u64::MAX, 64));
    }
}
