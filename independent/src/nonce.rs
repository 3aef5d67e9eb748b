//! Nonces, their order, and the loser of a collision.

use std::fmt;

use crate::hex;
use crate::side::Side;

/// A nonce of 16 to 32 octets. The derived order is that of the octets, where a nonce that ends first is the lower.
#[derive(Clone, PartialEq, Eq, PartialOrd, Ord, Hash, Debug)]
pub struct Nonce(Vec<u8>);

impl Nonce {
    pub const SHORTEST: usize = 16;
    pub const LONGEST: usize = 32;

    pub fn new(octets: &[u8]) -> Option<Nonce> {
        (Self::SHORTEST..=Self::LONGEST).contains(&octets.len()).then(|| Nonce(octets.to_vec()))
    }

    pub fn octets(&self) -> &[u8] {
        &self.0
    }
}

impl fmt::Display for Nonce {
    fn fmt(&self, f: &mut fmt::Formatter<'_>) -> fmt::Result {
        f.write_str(&hex::format(&self.0))
    }
}

/// The lower of two nonces; of equal ones the first.
pub fn lower<'n>(first: &'n Nonce, second: &'n Nonce) -> &'n Nonce {
    if second < first { second } else { first }
}

/// The two nonces of an exchange that makes an SA.
#[derive(Clone, PartialEq, Eq, Debug)]
pub struct Exchange {
    pub initiator: Nonce,
    pub responder: Nonce,
}

/// Whose new SA loses where both ends rekeyed one SA: that of the exchange with the lowest of the four nonces, and of
/// equal ones the first, in the order A's initiator's, A's responder's, B's initiator's, B's responder's.
pub fn loser(of_a: &Exchange, of_b: &Exchange) -> Side {
    let in_order = [
        (&of_a.initiator, Side::A),
        (&of_a.responder, Side::A),
        (&of_b.initiator, Side::B),
        (&of_b.responder, Side::B),
    ];
    let (mut lowest, mut loser) = in_order[0];
    for (nonce, side) in in_order {
        if nonce < lowest {
            (lowest, loser) = (nonce, side);
        }
    }
    loser
}

#[cfg(test)]
mod tests {
    use super::*;

    fn of(octet: u8) -> Nonce {
        Nonce::new(&[octet; 16]).unwrap()
    }

    fn exchange(initiator: u8, responder: u8) -> Exchange {
        Exchange { initiator: of(initiator), responder: of(responder) }
    }

    #[test]
    fn a_nonce_has_16_to_32_octets() {
        for length in 0..50 {
            assert_eq!(Nonce::new(&vec![1; length]).is_some(), (16..=32).contains(&length));
        }
    }

    #[test]
    fn the_beginning_of_a_nonce_is_lower() {
        let longer = Nonce::new(&[0x55; 17]).unwrap();
        assert_eq!(*lower(&longer, &of(0x55)), of(0x55));
        assert_eq!(*lower(&of(2), &of(1)), of(1));
    }

    #[test]
    fn the_lowest_of_four_nonces_loses_and_a_where_both_hold_it() {
        assert_eq!(loser(&exchange(0x55, 0x77), &exchange(0x44, 0x66)), Side::B);
        assert_eq!(loser(&exchange(0x44, 0x66), &exchange(0x55, 0x77)), Side::A);
        assert_eq!(loser(&exchange(0x55, 0x11), &exchange(0x44, 0x66)), Side::A);
        assert_eq!(loser(&exchange(0x55, 0x11), &exchange(0x44, 0x11)), Side::A);
        assert_eq!(loser(&exchange(0x11, 0x11), &exchange(0x11, 0x11)), Side::A);
    }
}
