//! The check word (rules 2.1 to 2.4).

/// What the word is combined with where the two bits differ (rule 2.2).
const POLYNOMIAL: u16 = 0x1021;

/// The check word before the first byte (rule 2.1).
pub const START: u16 = 0xFFFF;

/// The check word after the bytes, `start` being the check word before them (rule 2.3).
pub fn check_word_from(start: u16, bytes: &[u8]) -> u16 {
    let mut check = start;
    for &byte in bytes {
        for bit in (0..8).rev() {
            let data_bit = u16::from((byte >> bit) & 1);
            let leaving_bit = check >> 15;
            check <<= 1;
            if leaving_bit != data_bit {
                check ^= POLYNOMIAL;
            }
        }
    }
    check
}

/// The check word after the bytes, from its start FFFF.
pub fn check_word(bytes: &[u8]) -> u16 {
    check_word_from(START, bytes)
}

#[cfg(test)]
mod tests {
    use super::*;

    #[test]
    fn the_three_check_words_of_rule_2_4() {
        assert_eq!(check_word(&[0xA1, 0xA1, 0xA1]), 0xCDB4);
        assert_eq!(check_word(&[0xA1, 0xA1, 0xA1, 0xFE]), 0xB230);
        assert_eq!(check_word(&[0xA1, 0xA1, 0xA1, 0xFB]), 0xE295);
    }

    #[test]
    fn no_bytes_leave_the_start() {
        assert_eq!(check_word(&[]), 0xFFFF);
        assert_eq!(check_word_from(0x1234, &[]), 0x1234);
    }

    #[test]
    fn the_check_word_goes_on_from_any_byte() {
        let bytes = [0xA1, 0xA1, 0xA1, 0xFE, 0, 0, 1, 2];
        for cut in 0..bytes.len() {
            let first = check_word(&bytes[..cut]);
            assert_eq!(check_word_from(first, &bytes[cut..]), check_word(&bytes));
        }
    }

    #[test]
    fn bytes_with_their_own_check_word_leave_zero() {
        let mut bytes = vec![0xA1, 0xA1, 0xA1, 0xFB, 7, 200, 31];
        let check = check_word(&bytes);
        bytes.extend(check.to_be_bytes());
        assert_eq!(check_word(&bytes), 0);
    }
}
