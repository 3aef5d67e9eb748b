//! Histories of messages: encoded, read back, and read with damage.

use crate::hex;
use crate::message::Message;
use crate::nonce::Nonce;

use super::nonces::Family;
use super::player::Player;
use super::random::Random;

pub fn play(player: &mut Player, random: &mut Random) {
    let family = Family::new(random);
    for _ in 0..random.between(1, 4) {
        let line = message(&family, random);
        let octets = encoded(&line);
        player.say(format!("encode {line}"));
        player.say(format!("decode {}", word(&octets, random)));
        for _ in 0..random.between(2, 12) {
            let damaged = damage(octets.clone(), random);
            player.say(format!("decode {}", word(&damaged, random)));
        }
    }
}

/// The octets of a message that is written as in a script.
pub fn encoded(line: &str) -> Vec<u8> {
    let output = crate::script::run(&format!("encode {line}\n"));
    hex::parse(output.trim_end()).unwrap_or_default()
}

fn message(family: &Family, random: &mut Random) -> String {
    let (a, b) = (random.draw(), if random.chance(80) { random.draw() } else { 0 });
    let sender = random.pick(&["A", "B"]);
    let (id, spi, old) = (number(random), number(random), number(random));
    let nonce = family.right(random);
    let what = match random.below(11) {
        0 => format!("request {id} create spi {spi} nonce {nonce}"),
        1 | 2 => format!("request {id} rekey old {old} spi {spi} nonce {nonce}"),
        3 => format!("request {id} delete spi {spi}"),
        4 => format!("request {id} empty"),
        5 | 6 => format!("response {id} new spi {spi} nonce {nonce}"),
        7 => format!("response {id} notify {}", random.pick(&["14", "35", "43"])),
        8 => format!("response {id} notify 44 spi {spi}"),
        9 => format!("response {id} delete spi {spi}"),
        _ => format!("response {id} empty"),
    };
    format!("ike {a:016x} {b:016x} {sender} {what}")
}

fn number(random: &mut Random) -> u32 {
    match random.below(4) {
        0 => *random.pick(&[0, 1, 255, 256, 1000, u32::MAX - 1, u32::MAX]),
        _ => random.number(),
    }
}

fn word(octets: &[u8], random: &mut Random) -> String {
    let digits = if octets.is_empty() { "-".to_string() } else { hex::format(octets) };
    if random.chance(5) { digits.to_uppercase() } else { digits }
}

const HEADER: usize = 28;
const TYPES: [u8; 9] = [0, 33, 40, 41, 42, 43, 44, 45, 46];

fn damage(mut octets: Vec<u8>, random: &mut Random) -> Vec<u8> {
    match random.below(9) {
        0 | 1 => {
            for _ in 0..random.between(1, 3) {
                let place = random.below(octets.len());
                octets[place] ^= 1 << random.below(8);
            }
        }
        2 => {
            // Octets that decide what kind of message it is.
            let place = *random.pick(&[16, 17, 18, 19, 19, 18, 16]);
            octets[place] = *random.pick(&[0x00, 0x08, 0x20, 0x21, 0x28, 33, 36, 37, 38, 41, 42]);
        }
        3 => {
            let length = random.below(octets.len());
            octets.truncate(length);
            if random.chance(50) {
                tell_length(&mut octets);
            }
        }
        4 => {
            for _ in 0..random.between(1, 6) {
                octets.push(*random.pick(&[0, 0, 4, 255]));
            }
            if random.chance(70) {
                tell_length(&mut octets);
            }
        }
        _ => octets = operate(&octets, random),
    }
    octets
}

/// Puts the number of octets into the header, where there is one.
pub fn tell_length(octets: &mut [u8]) {
    let length = octets.len() as u32;
    if let Some(place) = octets.get_mut(24..28) {
        place.copy_from_slice(&length.to_be_bytes());
    }
}

/// A payload by its type and the octets behind its first four.
pub type Payload = (u8, Vec<u8>);

/// The payloads of a message that is right.
pub fn payloads(octets: &[u8]) -> Vec<Payload> {
    let mut payloads = Vec::new();
    let (mut kind, mut rest) = (octets[16], &octets[HEADER..]);
    while kind != 0 && rest.len() >= 4 {
        let length = usize::from(rest[2]) << 8 | usize::from(rest[3]);
        payloads.push((kind, rest[4..length].to_vec()));
        kind = rest[0];
        rest = &rest[length..];
    }
    payloads
}

/// The header again, with a chain of these payloads and the right lengths.
pub fn chained(octets: &[u8], payloads: &[Payload]) -> Vec<u8> {
    let mut whole = octets[..HEADER].to_vec();
    whole[16] = payloads.first().map_or(0, |(kind, _)| *kind);
    for (place, (_, data)) in payloads.iter().enumerate() {
        whole.push(payloads.get(place + 1).map_or(0, |(kind, _)| *kind));
        whole.push(0);
        whole.extend((4 + data.len() as u16).to_be_bytes());
        whole.extend(data);
    }
    tell_length(&mut whole);
    whole
}

/// Changes the payloads and chains them again.
fn operate(octets: &[u8], random: &mut Random) -> Vec<u8> {
    if Message::decode(octets).is_err() {
        return octets.to_vec();
    }
    let mut payloads = payloads(octets);
    for _ in 0..random.between(1, 2) {
        operate_once(&mut payloads, random);
    }
    let mut whole = chained(octets, &payloads);
    if random.chance(15) {
        let flags = *random.pick(&[0x00, 0x08, 0x20, 0x28]);
        whole[19] = flags;
    }
    if random.chance(15) {
        whole[18] = *random.pick(&[36, 37]);
    }
    whole
}

fn operate_once(payloads: &mut Vec<Payload>, random: &mut Random) {
    if payloads.is_empty() || random.chance(10) {
        let data = vec![random.octet(); random.below(30)];
        let place = random.below(payloads.len() + 1);
        payloads.insert(place, (*random.pick(&TYPES), data));
        return;
    }
    let place = random.below(payloads.len());
    match random.below(7) {
        0 => {
            payloads.remove(place);
        }
        1 => {
            let payload = payloads[place].clone();
            payloads.insert(place, payload);
        }
        2 => {
            let other = random.below(payloads.len());
            payloads.swap(place, other);
        }
        3 => payloads[place].0 = *random.pick(&TYPES),
        4 => {
            let length = random.below(Nonce::LONGEST + 6);
            payloads[place].1.resize(length, 0x21);
        }
        5 => {
            let data = &mut payloads[place].1;
            if !data.is_empty() {
                let at = random.below(data.len());
                data[at] = random.octet();
            }
        }
        _ => {
            let data = &mut payloads[place].1;
            if random.chance(50) {
                data.pop();
            } else {
                data.push(0);
            }
        }
    }
}
