//! Histories of a channel.

use crate::hex;
use crate::side::Side;

use super::ends;
use super::player::Player;
use super::random::Random;

pub fn play(player: &mut Player, random: &mut Random) {
    let longest = *random.pick(&[20, 24, 28, 32, 33, 40, 64, 100, 160, 244, 248, 252, 256]);
    player.say(format!("channel {}", ends::channel(random, longest)));
    let fill = random.chance(15);
    if fill {
        let side = *random.pick(&Side::BOTH);
        for place in 0..random.between(28, 36) {
            player.say(format!("send {side} {place:02x}"));
        }
    }
    let steps = random.weighted(&[(40, 20), (40, 50), (20, 120)]);
    for _ in 0..random.between(steps / 3, steps) {
        step(player, random);
    }
    for side in Side::BOTH {
        for _ in 0..random.between(1, if fill { 34 } else { 12 }) {
            player.say(format!("receive {side}"));
        }
    }
}

#[derive(Clone, Copy)]
enum Step {
    Send,
    SendToAnEdge,
    SendZeros,
    Receive,
    ReceiveIntoABuffer,
    Mark,
    Unmark,
    Remake,
    Refused,
}

fn step(player: &mut Player, random: &mut Random) {
    let side = *random.pick(&Side::BOTH);
    let longest = player.session.channel().map_or(0, |channel| channel.longest());
    match random.weighted(&[
        (34, Step::Send),
        (7, Step::SendToAnEdge),
        (7, Step::SendZeros),
        (26, Step::Receive),
        (10, Step::ReceiveIntoABuffer),
        (7, Step::Mark),
        (7, Step::Unmark),
        (1, Step::Remake),
        (1, Step::Refused),
    ]) {
        Step::Send => {
            let length = random.between(0, 6);
            let octets: Vec<u8> = (0..length).map(|_| random.octet()).collect();
            player.say(format!("send {side} {}", word(&octets)));
        }
        Step::SendToAnEdge => {
            let length = (longest + random.below(4)).saturating_sub(2);
            let octet = random.octet();
            player.say(format!("send {side} {}", word(&vec![octet; length])));
        }
        Step::SendZeros => {
            // What looks marked, to the end or not.
            let mut octets = vec![0; random.between(1, 13)];
            if random.chance(50) {
                octets.push(random.octet());
            }
            player.say(format!("send {side} {}", word(&octets)));
        }
        Step::Receive => {
            player.say(format!("receive {side}"));
        }
        Step::ReceiveIntoABuffer => {
            let buffer = match random.below(4) {
                0 => random.between(0, 257),
                1 => longest.saturating_sub(1),
                2 => longest,
                _ => (longest + random.below(6)).min(256),
            };
            player.say(format!("receive {side} {buffer}"));
        }
        Step::Mark => {
            player.say("mark");
        }
        Step::Unmark => {
            player.say("unmark");
        }
        Step::Remake => {
            let longest = *random.pick(&[32, 64, 160]);
            player.say(format!("channel {}", ends::channel(random, longest)));
        }
        Step::Refused => {
            let longest = *random.pick(&[0, 31, 257, 300, 4_294_967_295_usize]);
            player.say(format!("channel {} {longest}", random.pick(&["queue", "stack"])));
        }
    }
}

fn word(octets: &[u8]) -> String {
    if octets.is_empty() { "-".to_string() } else { hex::format(octets) }
}
