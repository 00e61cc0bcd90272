//! The FCS (Annex B): its five steps, by long division of polynomials.

/// Bits of the FCS, and the degree of G(x).
pub const FCS_BITS: usize = 32;
/// The powers of x in G(x).
const GENERATOR: [usize; 15] = [32, 26, 23, 22, 16, 12, 11, 10, 8, 7, 5, 4, 2, 1, 0];

/// The FCS of a frame, the coefficient of the highest power first (9.7.10).
pub fn fcs(frame: &[bool]) -> Vec<bool> {
    let mut frame = frame.to_vec();
    // 1) The first 32 bits are complemented; if there are less, then those.
    complement(frame.iter_mut().take(FCS_BITS));
    // 2) The bits are the coefficients of M(x), the first that of the highest power.
    // 3) M(x) is multiplied by x to the 32 and divided by G(x).
    frame.resize(frame.len() + FCS_BITS, false);
    // 4) The coefficients of the remainder are a sequence of 32 bits.
    let mut sequence = remainder(frame);
    // 5) The sequence is complemented.
    complement(sequence.iter_mut());
    sequence
}

fn complement<'a>(bits: impl Iterator<Item = &'a mut bool>) {
    bits.for_each(|bit| *bit = !*bit);
}

/// The last 32 coefficients of what is left when G(x) has been taken away from every higher power.
fn remainder(mut dividend: Vec<bool>) -> Vec<bool> {
    let quotient = dividend.len() - FCS_BITS;
    for at in 0..quotient {
        if dividend[at] {
            for power in GENERATOR {
                dividend[at + FCS_BITS - power] ^= true;
            }
        }
    }
    dividend.split_off(quotient)
}

/// What others call CRC-32/BZIP2: a register of 32 bits that starts with ones. It is the FCS for
/// 32 bits and more; for fewer it complements bits that the frame does not have.
pub fn register(frame: &[bool]) -> Vec<bool> {
    let mut register = vec![true; FCS_BITS];
    for &bit in frame {
        let out = register.remove(0);
        register.push(false);
        if out != bit {
            for power in &GENERATOR[1..] {
                register[FCS_BITS - 1 - power] ^= true;
            }
        }
    }
    complement(register.iter_mut());
    register
}

#[cfg(test)]
mod tests {
    use super::*;
    use crate::bits::{spell, unpack, value};

    fn number(frame: &[bool]) -> u64 {
        value(&fcs(frame))
    }

    #[test]
    fn nine_characters() {
        assert_eq!(number(&unpack(b"123456789")), 0xFC89_1918);
    }

    /// The whole generator, the power 32 apart, with its coefficients written down.
    const G: u64 = 0x04C1_1DB7;

    #[test]
    fn fewer_than_32_bits() {
        // One bit 1 is complemented to M(x) = 0: remainder 0, FCS all ones.
        assert_eq!(number(&[true]), 0xFFFF_FFFF);
        // One bit 0 is complemented to M(x) = 1: remainder G(x) without its first power.
        assert_eq!(number(&[false]), 0xFFFF_FFFF ^ G);
        // Two bits 01 give M(x) = x: the remainder is that of one bit 0, times x.
        assert_eq!(number(&[false, true]), 0xFFFF_FFFF ^ G << 1);
        // Ones alone, up to 32 of them, are complemented to nothing; the 33rd is not complemented.
        for length in 1..=32 {
            assert_eq!(number(&vec![true; length]), 0xFFFF_FFFF, "{length} ones");
        }
        assert_eq!(number(&[true; 33]), 0xFFFF_FFFF ^ G);
        // Short reports, with reference 5, in a DM-SDS DATA and in a DM-SDS ACK.
        assert_eq!(number(&spell(0b0_0100_011111_10_00000101, 21)), 0x187E_94A5);
        assert_eq!(
            number(&spell(0b0001_0100_011111_10_00000101, 24)),
            0xA49C_AE75
        );
        // No bits at all: nothing is complemented, nothing is divided.
        assert_eq!(number(&[]), 0xFFFF_FFFF);
    }

    #[test]
    fn the_register_is_the_same_from_32_bits_on() {
        for length in 1..=80 {
            let frame: Vec<bool> = (0..length).map(|i| (i * i + length) % 7 % 2 == 1).collect();
            let same = fcs(&frame) == register(&frame);
            assert_eq!(same, length >= 32, "{length} bits");
        }
        assert_eq!(value(&register(&unpack(b"123456789"))), 0xFC89_1918);
    }
}
