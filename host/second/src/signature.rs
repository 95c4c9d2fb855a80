//! The signature, by long division.

/// x^31 + x^3 + 1.
const DIVISOR: u64 = 1 << 31 | 1 << 3 | 1;

/// The remainder of the bytes, read as one binary polynomial (first byte highest, top bit highest), by x^31 + x^3 + 1.
pub fn remainder(bytes: &[u8]) -> u64 {
    bytes.iter().fold(0, |rest, &byte| divide(rest << 8 | u64::from(byte)))
}

/// Takes the divisor away from each of the eight places above x^30, the highest first, where that place is 1.
fn divide(mut rest: u64) -> u64 {
    for place in (31..39).rev() {
        if rest >> place & 1 == 1 {
            rest ^= DIVISOR << (place - 31);
        }
    }
    rest
}

#[cfg(test)]
mod tests {
    use super::remainder;
    use noise::Noise;

    /// x to the power, as bytes.
    fn power(exponent: usize) -> Vec<u8> {
        let mut bytes = vec![0; exponent / 8 + 1];
        bytes[0] = 1 << (exponent % 8);
        bytes
    }

    #[test]
    fn powers_below_the_divisor_stay() {
        for exponent in 0..31 {
            assert_eq!(remainder(&power(exponent)), 1 << exponent);
        }
        assert_eq!(remainder(&power(31)), 0b1001);
        assert_eq!(remainder(&power(32)), 0b10010);
    }

    #[test]
    fn remainders_add_without_carry() {
        let mut noise = Noise::new(31);
        for _ in 0..200 {
            let (one, other) = (noise.bytes(48), noise.bytes(48));
            let sum: Vec<u8> = one.iter().zip(&other).map(|(a, b)| a ^ b).collect();
            assert_eq!(remainder(&sum), remainder(&one) ^ remainder(&other));
            assert!(remainder(&sum) < 1 << 31);
        }
    }

    #[test]
    fn rolling_on_is_what_document_01_says() {
        let mut noise = Noise::new(48);
        let leaves = remainder(&power(384));
        for _ in 0..200 {
            let bytes = noise.bytes(49);
            let shifted = remainder(&[&remainder(&bytes[..48]).to_be_bytes()[..], &[0]].concat());
            let mut rolled = shifted ^ u64::from(bytes[48]);
            for bit in (0..8).filter(|bit| bytes[0] >> bit & 1 == 1) {
                rolled ^= remainder(&(leaves << bit).to_be_bytes());
            }
            assert_eq!(rolled, remainder(&bytes[1..]));
        }
    }
}
