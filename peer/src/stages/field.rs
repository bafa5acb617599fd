//! The field of 256 bytes: polynomials over two elements modulo x^8 + x^4 + x^3 + x^2 + 1.

/// The field's polynomial without its highest power.
const REDUCTION: u8 = 0x1D;
/// How many elements are powers of α, the byte 02: all but 0.
const CYCLE: usize = 255;

/// α^k at k, through the cycle twice, so that the sum of two logarithms is a place in it.
static POWERS: [u8; 2 * CYCLE] = powers();
/// The k below 255 with α^k at the byte; that of 0 has no meaning.
static LOGARITHMS: [u8; CYCLE + 1] = logarithms();

const fn powers() -> [u8; 2 * CYCLE] {
    let mut powers = [1; 2 * CYCLE];
    let mut k = 1;
    while k < powers.len() {
        let before = powers[k - 1];
        powers[k] = before << 1 ^ if before >= 128 { REDUCTION } else { 0 };
        k += 1;
    }
    powers
}

const fn logarithms() -> [u8; CYCLE + 1] {
    let powers = powers();
    let mut logarithms = [0; CYCLE + 1];
    let mut k = 0;
    while k < CYCLE {
        logarithms[powers[k] as usize] = k as u8;
        k += 1;
    }
    logarithms
}

/// α^k, for k up to 509.
pub fn power(k: usize) -> u8 {
    POWERS[k]
}

/// The k below 255 with α^k the byte, which is not 0.
pub fn logarithm(byte: u8) -> usize {
    usize::from(LOGARITHMS[usize::from(byte)])
}

/// The product of two bytes.
pub fn multiply(one: u8, other: u8) -> u8 {
    if one == 0 || other == 0 {
        return 0;
    }
    power(logarithm(one) + logarithm(other))
}

#[cfg(test)]
mod tests {
    use super::*;

    /// The product by multiplying the polynomials and dividing by hand.
    fn by_hand(one: u8, other: u8) -> u8 {
        let terms = (0..8).filter(|k| other >> k & 1 == 1);
        let mut product = terms.fold(0u32, |sum, k| sum ^ u32::from(one) << k);
        for k in (8..15).rev() {
            if product >> k & 1 == 1 {
                product ^= 0b1_0001_1101 << (k - 8);
            }
        }
        product as u8
    }

    #[test]
    fn products_are_those_of_polynomials() {
        for one in 0..=255 {
            for other in 0..=255 {
                assert_eq!(multiply(one, other), by_hand(one, other), "{one} {other}");
            }
        }
    }

    #[test]
    fn alpha_times_x_to_the_7_is_1d() {
        assert_eq!(multiply(0x02, 0x80), 0x1D);
        assert_eq!(multiply(0x8E, 0x02), 0x01);
    }
}
