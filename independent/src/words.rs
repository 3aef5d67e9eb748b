//! The words of a line, taken one after the other.

use crate::hex;
use crate::nonce::Nonce;
use crate::side::Side;

/// What is wrong with a line.
pub type Wrong = String;

pub struct Words<'w> {
    rest: &'w [&'w str],
}

impl<'w> Words<'w> {
    pub fn new(words: &'w [&'w str]) -> Words<'w> {
        Words { rest: words }
    }

    pub fn next(&mut self, expected: &str) -> Result<&'w str, Wrong> {
        let (first, rest) = self.rest.split_first().ok_or_else(|| format!("a word is missing: expected {expected}"))?;
        self.rest = rest;
        Ok(first)
    }

    /// Passes over the word where it is the next one.
    pub fn skip(&mut self, word: &str) -> bool {
        let is_next = self.rest.first() == Some(&word);
        if is_next {
            self.rest = &self.rest[1..];
        }
        is_next
    }

    pub fn is_at_end(&self) -> bool {
        self.rest.is_empty()
    }

    pub fn end(&self) -> Result<(), Wrong> {
        match self.rest.first() {
            Some(word) => Err(format!("too many words, from `{word}` on")),
            None => Ok(()),
        }
    }

    pub fn keyword(&mut self, keyword: &str) -> Result<(), Wrong> {
        self.choice(&[(keyword, ())])
    }

    /// The value of the word, which has to be one of these.
    pub fn choice<T: Clone>(&mut self, choices: &[(&str, T)]) -> Result<T, Wrong> {
        let names: Vec<&str> = choices.iter().map(|(name, _)| *name).collect();
        let expected = names.join(" or ");
        let word = self.next(&expected)?;
        choices
            .iter()
            .find(|(name, _)| *name == word)
            .map(|(_, value)| value.clone())
            .ok_or_else(|| format!("expected {expected}, found `{word}`"))
    }

    pub fn side(&mut self) -> Result<Side, Wrong> {
        self.choice(&[("A", Side::A), ("B", Side::B)])
    }

    pub fn number(&mut self, expected: &str) -> Result<u32, Wrong> {
        let word = self.next(expected)?;
        if !word.bytes().all(|character| character.is_ascii_digit()) {
            return Err(format!("expected {expected}, found `{word}`"));
        }
        word.parse().map_err(|_| format!("too large a number: `{word}`"))
    }

    pub fn number_up_to(&mut self, expected: &str, least: u32, most: u32) -> Result<u32, Wrong> {
        let number = self.number(expected)?;
        if (least..=most).contains(&number) {
            Ok(number)
        } else {
            Err(format!("expected {expected}, {least} to {most}, found {number}"))
        }
    }

    pub fn octets(&mut self, expected: &str) -> Result<Vec<u8>, Wrong> {
        let word = self.next(expected)?;
        hex::parse(word).ok_or_else(|| format!("expected {expected} in hexadecimal digits, found `{word}`"))
    }

    /// Octets, or none where there is a `-`.
    pub fn octets_or_none(&mut self, expected: &str) -> Result<Vec<u8>, Wrong> {
        if self.skip("-") { Ok(Vec::new()) } else { self.octets(expected) }
    }

    pub fn ike_spi(&mut self) -> Result<[u8; 8], Wrong> {
        let octets = self.octets("an IKE SPI")?;
        <[u8; 8]>::try_from(octets).map_err(|octets| format!("an IKE SPI has 8 octets, not {}", octets.len()))
    }

    pub fn nonce(&mut self, expected: &str) -> Result<Nonce, Wrong> {
        let octets = self.octets(expected)?;
        let octets = stretched(octets);
        Nonce::new(&octets).ok_or_else(|| format!("a nonce has 16 to 32 octets, not {}", octets.len()))
    }

    pub fn nonce_or_none(&mut self, expected: &str) -> Result<Option<Nonce>, Wrong> {
        if self.skip("-") { Ok(None) } else { self.nonce(expected).map(Some) }
    }

    /// A nonce of any length, as an end is given it.
    pub fn any_nonce(&mut self) -> Result<Vec<u8>, Wrong> {
        self.octets_or_none("a nonce").map(stretched)
    }
}

/// One octet alone stands for sixteen of it.
fn stretched(octets: Vec<u8>) -> Vec<u8> {
    match octets.as_slice() {
        [octet] => vec![*octet; Nonce::SHORTEST],
        _ => octets,
    }
}

#[cfg(test)]
mod tests {
    use super::*;

    fn number(word: &str) -> Option<u32> {
        Words::new(&[word]).number("a number").ok()
    }

    #[test]
    fn numbers_are_decimal_digits_of_32_bits() {
        assert_eq!(number("4294967295"), Some(u32::MAX));
        assert_eq!(number("007"), Some(7));
        for word in ["4294967296", "-1", "+1", "0x1", "a", "1_0", "99999999999999999999999999"] {
            assert_eq!(number(word), None, "{word}");
        }
    }

    #[test]
    fn one_octet_stands_for_sixteen() {
        assert_eq!(Words::new(&["5A"]).any_nonce(), Ok(vec![0x5a; 16]));
        assert_eq!(Words::new(&["5A5b"]).any_nonce(), Ok(vec![0x5a, 0x5b]));
        assert_eq!(Words::new(&["-"]).any_nonce(), Ok(vec![]));
        assert!(Words::new(&["-"]).nonce("a nonce").is_err());
    }
}
