//! Nonces that are hard to tell apart, and histories of their order.

use crate::hex;
use crate::nonce::Nonce;

use super::player::Player;
use super::random::Random;

/// A few nonces that are equal, beginnings of one another, or different in one octet.
pub struct Family {
    members: Vec<Vec<u8>>,
}

impl Family {
    pub fn new(random: &mut Random) -> Family {
        let mut family = Family { members: vec![fresh(random)] };
        for _ in 0..random.between(1, 5) {
            let relative = family.relative(random);
            family.members.push(relative);
        }
        if random.chance(40) {
            family.members.push(fresh(random));
        }
        family
    }

    fn member(&self, random: &mut Random) -> Vec<u8> {
        random.pick(&self.members).clone()
    }

    /// A nonce near to one of the family.
    fn relative(&self, random: &mut Random) -> Vec<u8> {
        let mut octets = self.member(random);
        let last = octets.len() - 1;
        match random.below(7) {
            0 => {}
            1 => octets[last] = octets[last].wrapping_add(1),
            2 => octets[last] = octets[last].wrapping_sub(1),
            3 => octets[0] ^= 1 << random.below(8),
            4 => {
                let length = random.between(Nonce::SHORTEST, octets.len());
                octets.truncate(length);
            }
            5 => {
                let length = random.between(octets.len(), Nonce::LONGEST);
                let filling = *random.pick(&[0x00, 0x55, 0xff]);
                octets.resize(length, filling);
            }
            _ => {
                let place = random.below(octets.len());
                octets[place] = random.octet();
            }
        }
        octets
    }

    /// A right nonce as a word.
    pub fn right(&self, random: &mut Random) -> String {
        let octets = match random.weighted(&[(65, 0), (25, 1), (10, 2)]) {
            0 => self.member(random),
            1 => self.relative(random),
            _ => fresh(random),
        };
        word(&octets, random)
    }

    /// Now and then a nonce of a wrong length, as far as an end may be given it.
    pub fn mostly_right(&self, random: &mut Random, percent_wrong: usize) -> String {
        if !random.chance(percent_wrong) {
            return self.right(random);
        }
        let length = *random.pick(&[0, 2, 15, 33, 40, 64]);
        if length == 0 {
            return "-".to_string();
        }
        let mut octets = self.member(random);
        octets.resize(length, 0x0f);
        hex::format(&octets)
    }
}

fn fresh(random: &mut Random) -> Vec<u8> {
    if random.chance(40) {
        return vec![random.octet(); Nonce::SHORTEST];
    }
    let length = *random.pick(&[16, 16, 17, 20, 31, 32, 32]);
    (0..length).map(|_| random.octet()).collect()
}

/// One octet for sixteen of it, where that says the same, and digits of either case.
fn word(octets: &[u8], random: &mut Random) -> String {
    let is_one_octet = octets.len() == Nonce::SHORTEST && octets.iter().all(|octet| *octet == octets[0]);
    let digits = if is_one_octet && random.chance(80) { hex::format(&octets[..1]) } else { hex::format(octets) };
    if random.chance(5) { digits.to_uppercase() } else { digits }
}

/// A history of `lower` and `loser`.
pub fn play(player: &mut Player, random: &mut Random) {
    let family = Family::new(random);
    for _ in 0..random.between(3, 25) {
        let mut words = vec![if random.chance(50) { "lower" } else { "loser" }.to_string()];
        let count = if words[0] == "lower" { 2 } else { 4 };
        for _ in 0..count {
            words.push(family.mostly_right(random, 1));
        }
        player.say(words.join(" "));
    }
}
