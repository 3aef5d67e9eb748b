//! Octets as hexadecimal digits.

/// The octets of a word of an even number of hexadecimal digits of either case, at least two.
pub fn parse(word: &str) -> Option<Vec<u8>> {
    let digits = word.as_bytes();
    if digits.is_empty() || !digits.len().is_multiple_of(2) {
        return None;
    }
    digits.chunks_exact(2).map(|pair| Some(digit(pair[0])? << 4 | digit(pair[1])?)).collect()
}

fn digit(character: u8) -> Option<u8> {
    match character {
        b'0'..=b'9' => Some(character - b'0'),
        b'a'..=b'f' => Some(character - b'a' + 10),
        b'A'..=b'F' => Some(character - b'A' + 10),
        _ => None,
    }
}

/// The octets in lower case.
pub fn format(octets: &[u8]) -> String {
    const DIGITS: &[u8; 16] = b"0123456789abcdef";
    let mut text = String::with_capacity(2 * octets.len());
    for &octet in octets {
        text.push(char::from(DIGITS[usize::from(octet >> 4)]));
        text.push(char::from(DIGITS[usize::from(octet & 15)]));
    }
    text
}

#[cfg(test)]
mod tests {
    use super::*;

    #[test]
    fn digits_of_either_case_are_read_and_lower_case_is_written() {
        assert_eq!(parse("0aFf"), Some(vec![0x0a, 0xff]));
        assert_eq!(format(&[0x0a, 0xff]), "0aff");
    }

    #[test]
    fn other_words_are_no_octets() {
        for word in ["", "0", "0g", "--", "+1", "0é"] {
            assert_eq!(parse(word), None, "{word}");
        }
    }
}
