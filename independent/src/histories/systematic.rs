//! Every octet of every kind of message with every other value, every cut and every lengthening: the part of a run that
//! needs no chance.

use crate::hex;

use super::messages::{chained, encoded, payloads, tell_length};
use super::player::Player;

const NONCE: &str = "101112131415161718191a1b1c1d1e1f2021";
const LONG_NONCE: &str = "000102030405060708090a0b0c0d0e0f101112131415161718191a1b1c1d1e1f";

/// Messages of every kind, from either end.
fn kinds() -> Vec<String> {
    let kinds = [
        "A request 2 create spi 1000 nonce 55".to_string(),
        format!("B request 4294967295 create spi 4294967295 nonce {LONG_NONCE}"),
        format!("B request 3 rekey old 2000 spi 2001 nonce {NONCE}"),
        format!("A request 3 rekey old 2000 spi 2001 nonce {LONG_NONCE}"),
        "A request 5 delete spi 1000".to_string(),
        "B request 0 empty".to_string(),
        "A request 0 empty".to_string(),
        "B response 2 new spi 2000 nonce 77".to_string(),
        format!("A response 2 new spi 0 nonce {LONG_NONCE}"),
        "A response 2 notify 14".to_string(),
        "B response 2 notify 35".to_string(),
        "A response 2 notify 43".to_string(),
        "B response 3 notify 44 spi 2000".to_string(),
        "B response 5 delete spi 2000".to_string(),
        "A response 5 empty".to_string(),
    ];
    kinds.map(|kind| format!("ike 0102030405060708 1112131415161718 {kind}")).to_vec()
}

/// Every command that needs something to be made before.
const NEEDY: [&str; 28] = [
    "put A row 1000 2000 3 0 parent 0 0 ni 55 nr 77",
    "read B 1000",
    "write A row 1000 2000 3 0 parent 0 0 ni 55 nr 77",
    "drop B 1000",
    "find A 1000",
    "next B 1000",
    "rows A",
    "audit",
    "book table B",
    "audit",
    "rows A",
    "mark",
    "unmark",
    "send A 01",
    "receive B",
    "channel queue 31",
    "receive B",
    "make queue 31 ids 0 0 spis 1000 2000 ike 0102030405060708 1112131415161718 books ordered table",
    "A create 55",
    "B rekey 1000 55",
    "A delete 1000",
    "B check",
    "A resend",
    "B deliver 55",
    "round 1 55",
    "books",
    "ends",
    "ladder",
];

const TOUR: &str = include_str!("../../tests/tour.script");

/// One history of the systematic part.
#[derive(Clone, Debug)]
pub enum Part {
    /// Commands for which nothing is there yet; this goes first.
    NothingThere,
    /// The tour of messages, books and channels.
    Tour,
    /// All values of one octet.
    Octet {
        kind: String,
        place: usize,
    },
    CutAndLengthened {
        kind: String,
    },
    /// Every exchange type and all flags, with the payloads of this kind.
    Announced {
        kind: String,
    },
    /// Each payload at every length near its own, with the chain and the message as long as they say.
    PayloadLengths {
        kind: String,
    },
    /// Payloads left out, doubled, and in every other order of two.
    Orders {
        kind: String,
    },
}

pub fn parts() -> Vec<Part> {
    let mut parts = vec![Part::NothingThere, Part::Tour];
    for kind in kinds() {
        for place in 0..encoded(&kind).len() {
            parts.push(Part::Octet { kind: kind.clone(), place });
        }
        parts.push(Part::CutAndLengthened { kind: kind.clone() });
        parts.push(Part::Announced { kind: kind.clone() });
        parts.push(Part::PayloadLengths { kind: kind.clone() });
        parts.push(Part::Orders { kind });
    }
    parts
}

impl Part {
    pub fn play(&self, player: &mut Player) {
        match self {
            Part::NothingThere => NEEDY.into_iter().for_each(|line| drop(player.say(line))),
            Part::Tour => take_the_tour(player),
            Part::Octet { kind, place } => change_octet(player, kind, *place),
            Part::CutAndLengthened { kind } => cut_and_lengthen(player, kind),
            Part::Announced { kind } => announce(player, kind),
            Part::PayloadLengths { kind } => change_payload_lengths(player, kind),
            Part::Orders { kind } => change_orders(player, kind),
        }
    }
}

/// Help is left out, since what it prints is free.
fn take_the_tour(player: &mut Player) {
    for line in TOUR.lines().filter(|line| *line != "help") {
        player.say(line);
    }
}

fn decode(player: &mut Player, octets: &[u8]) {
    let word = if octets.is_empty() { "-".to_string() } else { hex::format(octets) };
    player.say(format!("decode {word}"));
}

fn change_octet(player: &mut Player, kind: &str, place: usize) {
    let right = encoded(kind);
    player.say(format!("encode {kind}"));
    for value in 0..=u8::MAX {
        let mut octets = right.clone();
        octets[place] = value;
        decode(player, &octets);
    }
}

fn cut_and_lengthen(player: &mut Player, kind: &str) {
    let right = encoded(kind);
    for length in (0..right.len() + 40).chain([256, 257, 300]) {
        for filling in [0, 4] {
            let mut octets = right.clone();
            octets.resize(length, filling);
            decode(player, &octets);
            tell_length(&mut octets);
            decode(player, &octets);
        }
    }
}

fn announce(player: &mut Player, kind: &str) {
    let right = encoded(kind);
    for exchange in 34..=39 {
        for flags in 0..=u8::MAX {
            let mut octets = right.clone();
            octets[18] = exchange;
            octets[19] = flags;
            decode(player, &octets);
        }
    }
}

fn change_payload_lengths(player: &mut Player, kind: &str) {
    let right = encoded(kind);
    let payloads = payloads(&right);
    for place in 0..payloads.len() {
        let own = payloads[place].1.len();
        for length in 0..own + 24 {
            let mut changed = payloads.clone();
            changed[place].1.resize(length, 0);
            decode(player, &chained(&right, &changed));
        }
    }
}

fn change_orders(player: &mut Player, kind: &str) {
    let right = encoded(kind);
    let payloads = payloads(&right);
    for place in 0..payloads.len() {
        let mut without = payloads.clone();
        without.remove(place);
        decode(player, &chained(&right, &without));
        let mut doubled = payloads.clone();
        doubled.insert(place, payloads[place].clone());
        decode(player, &chained(&right, &doubled));
        for other in 0..place {
            let mut exchanged = payloads.clone();
            exchanged.swap(place, other);
            decode(player, &chained(&right, &exchanged));
        }
        for kind in 0..=u8::MAX {
            let mut renamed = payloads.clone();
            renamed[place].0 = kind;
            decode(player, &chained(&right, &renamed));
        }
    }
}
