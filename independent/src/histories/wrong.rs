//! Lines that are wrong, or at least written in an odd way.

use super::player::Player;
use super::random::Random;

const JUNK: [&str; 24] = [
    "x",
    "-",
    "--",
    "0",
    "1",
    "6",
    "-1",
    "+1",
    "007",
    "255",
    "256",
    "4294967295",
    "4294967296",
    "99999999999999999999",
    "0x10",
    "0g",
    "0",
    "aA",
    "abc",
    "A",
    "B",
    "C",
    "marker",
    "nonce",
];

/// The line with a word left out, added, changed, or two exchanged. It may still be right.
pub fn spoil(line: &str, random: &mut Random) -> String {
    let mut words: Vec<String> = line.split_whitespace().map(str::to_string).collect();
    if words.is_empty() {
        return line.to_string();
    }
    let place = random.below(words.len());
    match random.below(6) {
        0 => {
            words.remove(place);
        }
        1 => words.insert(place, (*random.pick(&JUNK)).to_string()),
        2 => words[place] = (*random.pick(&JUNK)).to_string(),
        3 => {
            let other = random.below(words.len());
            words.swap(place, other);
        }
        4 => words.push((*random.pick(&JUNK)).to_string()),
        _ => {
            words[place].pop();
        }
    }
    words.join(" ")
}

/// The same line with other spaces between its words, and perhaps a comment.
pub fn respace(line: &str, random: &mut Random) -> String {
    let mut text = random.pick::<&str>(&["", " ", "\t"]).to_string();
    for word in line.split_whitespace() {
        text.push_str(word);
        text.push_str(random.pick::<&str>(&[" ", "  ", "\t", " \t "]));
    }
    if random.chance(50) {
        text.truncate(text.trim_end().len());
    }
    text.push_str(random.pick::<&str>(&["", "", "# A check", "#", "  # ## x"]));
    text
}

const RIGHT: [&str; 44] = [
    "decode -",
    "decode 00",
    "encode ike 0102030405060708 1112131415161718 A request 5 delete spi 1000",
    "encode ike 0102030405060708 1112131415161718 B request 5 create spi 1000 nonce 55",
    "encode ike 0102030405060708 1112131415161718 A request 5 rekey old 1 spi 1000 nonce 55",
    "encode ike 0102030405060708 1112131415161718 B request 5 empty",
    "encode ike 0102030405060708 1112131415161718 A response 5 new spi 1 nonce 66",
    "encode ike 0102030405060708 1112131415161718 A response 5 notify 14",
    "encode ike 0102030405060708 1112131415161718 A response 5 notify 35",
    "encode ike 0102030405060708 1112131415161718 B response 5 notify 43",
    "encode ike 0102030405060708 1112131415161718 A response 5 notify 44 spi 7",
    "encode ike 0102030405060708 1112131415161718 A response 5 delete spi 7",
    "encode ike 0102030405060708 1112131415161718 A response 5 empty",
    "lower 01 02",
    "loser 55 77 44 66",
    "book ordered A",
    "book table B",
    "put A row 1000 2000 3 0 parent 0 0 ni 55 nr 77",
    "put B row 2000 1000 3 1 parent 0 0 ni 55 nr -",
    "write A row 1000 2000 1 0 parent 0 0 ni - nr 77",
    "read A 1000",
    "drop B 2000",
    "find A 2000",
    "next B 0",
    "rows A",
    "audit",
    "channel queue 160",
    "channel stack 160 marker",
    "channel trace 160 pl2j marker marker marker",
    "mark",
    "unmark",
    "send A 01",
    "send B -",
    "receive A",
    "receive B 256",
    "make queue 160 ids 0 0 spis 1000 2000 ike 0102030405060708 1112131415161718 books ordered table",
    "make trace 160 - marker ids 0 4294967295 spis 256 4294967295 ike 0102030405060708 1112131415161718 books table table",
    "A create 55",
    "B rekey 1000 66",
    "A delete 1000",
    "B check",
    "A resend",
    "B deliver 77",
    "round 2 88",
];

/// Lines of nothing, and lines with more octets than anything has.
fn odd(random: &mut Random) -> String {
    let octets = "0a".repeat(*random.pick(&[160, 161, 256, 257, 1000, 5000]));
    match random.below(9) {
        0 => String::new(),
        1 => " \t ".to_string(),
        2 => "#".to_string(),
        3 => format!("decode {octets}"),
        4 => format!("send A {octets}"),
        5 => format!("A create {octets}"),
        6 => format!("B deliver {octets}"),
        7 => format!("lower {octets} 01"),
        _ => format!("receive A {}", "0".repeat(octets.len()) + "160"),
    }
}

/// A history of lines of every kind, many of them spoiled.
pub fn play(player: &mut Player, random: &mut Random) {
    // What the lines need is there, so that a line that is spoiled is wrong for that alone.
    for index in [15, 16, 26, 35] {
        player.say(RIGHT[index]);
    }
    for _ in 0..random.between(5, 40) {
        let mut line = (*random.pick(&RIGHT)).to_string();
        if random.chance(8) {
            line = (*random.pick(&["books", "ends", "ladder"])).to_string();
        }
        if random.chance(75) {
            line = spoil(&line, random);
        }
        if random.chance(25) {
            line = respace(&line, random);
        }
        if random.chance(5) {
            line = odd(random);
        }
        // What help prints is free, and so is nothing that could be compared.
        if line.split_whitespace().next() != Some("help") {
            player.say(line);
        }
    }
}
