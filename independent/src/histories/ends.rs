//! Histories of two ends: all calls, right and wrong, mostly such that the ends get somewhere.

use std::collections::VecDeque;

use crate::book::{Row, State};
use crate::end::End;
use crate::side::Side;

use super::nonces::Family;
use super::player::Player;
use super::random::Random;
use super::wrong;

/// What a history is after.
#[derive(Clone, Copy, PartialEq, Eq)]
enum Aim {
    Anything,
    /// Both ends rekey or delete one SA at once.
    Collisions,
    /// Books with no room.
    FullBooks,
    /// So many resends that the channel is full.
    Flood,
    /// Some messages are longer than the channel takes.
    Narrow,
    /// IDs or SPIs run out.
    Spent,
}

pub fn play(player: &mut Player, random: &mut Random) {
    let aim = random.weighted(&[
        (37, Aim::Anything),
        (32, Aim::Collisions),
        (8, Aim::FullBooks),
        (4, Aim::Flood),
        (10, Aim::Narrow),
        (9, Aim::Spent),
    ]);
    if random.chance(3) {
        player.say(make_refused(random));
    }
    player.say(make(aim, random));
    let mut walk = Walk { family: Family::new(random), plan: VecDeque::new(), player, random, aim };
    walk.prelude();
    let steps = walk.random.weighted(&[(30, 15), (40, 40), (25, 80), (5, 200)]);
    for _ in 0..walk.random.between(steps / 3, steps) {
        walk.step();
    }
    walk.finish();
}

fn kinds(random: &mut Random) -> String {
    let kinds = ["ordered", "table"];
    format!("{} {}", random.pick(&kinds), random.pick(&kinds))
}

fn ike_spis(random: &mut Random) -> String {
    match random.below(4) {
        0 => format!("{:016x} {:016x}", random.draw(), random.draw()),
        1 => "0000000000000000 0000000000000000".to_string(),
        _ => "0102030405060708 1112131415161718".to_string(),
    }
}

pub fn fates(random: &mut Random) -> String {
    let weights: [(usize, char); 7] = match random.below(5) {
        0 => [(80, 'p'), (8, 'l'), (6, '2'), (6, 'j'), (0, '-'), (0, 'P'), (0, 'x')],
        1 => [(40, 'p'), (20, 'l'), (20, '2'), (20, 'j'), (0, '-'), (0, 'P'), (0, 'x')],
        2 => [(30, 'p'), (0, 'l'), (40, '2'), (30, 'j'), (0, '-'), (0, 'P'), (0, 'x')],
        3 => [(45, 'p'), (45, 'l'), (5, '2'), (5, 'j'), (0, '-'), (0, 'P'), (0, 'x')],
        _ => [(40, 'p'), (10, 'l'), (10, '2'), (20, 'j'), (7, '-'), (7, 'P'), (6, 'x')],
    };
    let most = *random.pick(&[0, 4, 12, 40, 80]);
    let length = random.between(0, most);
    if length == 0 {
        return "-".to_string();
    }
    (0..length).map(|_| random.weighted(&weights)).collect()
}

/// A bottom with its longest and its markers, as words.
pub fn channel(random: &mut Random, over_all_markers: usize) -> String {
    let markers = random.weighted(&[(55, 0), (20, 1), (13, 2), (12, 3)]);
    let longest = (over_all_markers + 4 * markers).clamp(32, 256);
    let bottom = match random.weighted(&[(35, 0), (22, 1), (43, 2)]) {
        0 => format!("queue {longest}"),
        1 => format!("stack {longest}"),
        _ => format!("trace {longest} {}", fates(random)),
    };
    bottom + &" marker".repeat(markers)
}

fn make(aim: Aim, random: &mut Random) -> String {
    let longest = if aim == Aim::Narrow {
        // A message has 28, 36, 40, 132 to 148 or 144 to 160 octets.
        *random.pick(&[
            20, 27, 28, 30, 35, 36, 39, 40, 41, 100, 131, 132, 133, 140, 143, 144, 145, 147, 148, 149, 155, 159,
        ])
    } else {
        *random.pick(&[160, 160, 160, 161, 200, 244, 256])
    };
    let ids = [first_id(aim, random), first_id(aim, random)];
    let spis = first_spis(aim, random);
    format!(
        "make {} ids {} {} spis {} {} ike {} books {}",
        channel(random, longest),
        ids[0],
        ids[1],
        spis[0],
        spis[1],
        ike_spis(random),
        kinds(random)
    )
}

fn near_the_end(random: &mut Random, most: usize) -> u32 {
    u32::MAX - random.between(0, most) as u32
}

fn first_id(aim: Aim, random: &mut Random) -> u32 {
    match random.below(10) {
        0..=3 if aim == Aim::Spent => near_the_end(random, 8),
        0..=6 => *random.pick(&[0, 0, 1, 2, 7]),
        7 => near_the_end(random, 200),
        _ => random.number(),
    }
}

fn first_spis(aim: Aim, random: &mut Random) -> [u32; 2] {
    let first = match random.below(10) {
        0..=3 if aim == Aim::Spent => near_the_end(random, 6),
        0..=6 => *random.pick(&[1000, 1000, 256, 257, 2000]),
        7 => near_the_end(random, 60),
        _ => random.number().max(256),
    };
    // SPIs of both ends may well be the same numbers.
    let second = match random.below(5) {
        0 => first,
        1 => first.saturating_add(1),
        2 if aim == Aim::Spent => near_the_end(random, 6),
        _ => 2000,
    };
    if random.chance(50) { [first, second] } else { [second, first] }
}

fn make_refused(random: &mut Random) -> String {
    let longest = *random.pick(&[0, 31, 32, 160, 160, 256, 257, u32::MAX]);
    let bottom = *random.pick(&["queue", "stack"]);
    let spis = [*random.pick(&[0, 255, 256, 1000]), *random.pick(&[0, 1, 255, 255])];
    format!(
        "make {bottom} {longest} marker ids 0 0 spis {} {} ike {} books {}",
        spis[0],
        spis[1],
        ike_spis(random),
        kinds(random)
    )
}

struct Walk<'p> {
    player: &'p mut Player,
    random: &'p mut Random,
    family: Family,
    aim: Aim,
    /// Lines that are to come next.
    plan: VecDeque<String>,
}

#[derive(Clone, Copy)]
enum Step {
    Deliver,
    Round,
    Ask,
    Resend,
    Look,
    Wrong,
    MakeAgain,
}

#[derive(Clone, Copy)]
enum Ask {
    Create,
    Rekey,
    Delete,
    Check,
}

impl Walk<'_> {
    fn end(&self, side: Side) -> Option<&End> {
        self.player.session.pair().map(|pair| pair.end(side))
    }

    fn is_quiet(&self, side: Side) -> bool {
        self.end(side).is_some_and(End::is_quiet)
    }

    fn row_count(&self, side: Side) -> usize {
        self.end(side).map_or(0, |end| end.book().len())
    }

    fn rows(&self, side: Side) -> Vec<Row> {
        self.end(side).map_or_else(Vec::new, |end| end.book().rows().cloned().collect())
    }

    fn side(&mut self) -> Side {
        *self.random.pick(&Side::BOTH)
    }

    fn nonce(&mut self) -> String {
        self.family.mostly_right(self.random, 3)
    }

    fn right_nonce(&mut self) -> String {
        self.family.right(self.random)
    }

    fn round(&mut self, most: usize) {
        let times = self.random.between(1, most);
        let nonce = self.nonce();
        self.player.say(format!("round {times} {nonce}"));
    }

    /// Brings the ends to where the aim is near.
    fn prelude(&mut self) {
        match self.aim {
            Aim::Anything | Aim::Narrow | Aim::Spent => {}
            Aim::Collisions => {
                let rows = self.random.between(1, 3);
                self.fill_up_to(rows);
            }
            Aim::FullBooks => {
                let rows = self.random.between(13, 16);
                self.fill_up_to(rows);
            }
            Aim::Flood => self.flood(),
        }
    }

    fn fill_up_to(&mut self, rows: usize) {
        for _ in 0..2 * rows {
            if self.row_count(Side::A) >= rows {
                break;
            }
            let side = self.side();
            let nonce = self.right_nonce();
            self.player.say(format!("{side} create {nonce}"));
            self.player.say(format!("round 2 {nonce}"));
        }
        if self.random.chance(70) {
            // What is Fresh becomes Standing.
            for side in Side::BOTH {
                self.player.say(format!("{side} check"));
            }
            let nonce = self.right_nonce();
            self.player.say(format!("round 2 {nonce}"));
        }
    }

    /// Resends until nothing more is taken, so that what is sent next, a Delete behind a rekey too, is not taken.
    fn flood(&mut self) {
        if self.random.chance(70) {
            let rows = self.random.between(1, 3);
            self.fill_up_to(rows);
        }
        let side = self.side();
        self.ask(side);
        let counts = [self.random.between(28, 40), self.random.between(0, 3), self.random.between(0, 4)];
        self.repeat(counts[0], &format!("{side} resend"));
        self.repeat_deliveries(counts[1], side.other());
        self.repeat(counts[2], &format!("{side} resend"));
        let most = *self.random.pick(&[1, 2, 35]);
        let deliveries = self.random.between(0, most);
        self.repeat_deliveries(deliveries, side);
        for _ in 0..self.random.between(0, 2) {
            self.ask(side);
        }
        if self.random.chance(60) {
            let deliveries = self.random.between(1, 40);
            self.repeat_deliveries(deliveries, side.other());
            let resends = self.random.between(0, 20);
            self.repeat(resends, &format!("{side} resend"));
            let deliveries = self.random.between(0, 20);
            self.repeat_deliveries(deliveries, side.other());
        }
    }

    fn repeat(&mut self, times: usize, line: &str) {
        for _ in 0..times {
            self.player.say(line);
        }
    }

    fn repeat_deliveries(&mut self, times: usize, side: Side) {
        let nonce = self.right_nonce();
        self.repeat(times, &format!("{side} deliver {nonce}"));
    }

    fn step(&mut self) {
        if let Some(line) = self.plan.pop_front() {
            self.player.say(line);
            return;
        }
        let (ask, resend) = match self.aim {
            Aim::Collisions => (40, 4),
            Aim::FullBooks => (45, 2),
            Aim::Flood => (15, 40),
            Aim::Anything | Aim::Narrow | Aim::Spent => (32, 7),
        };
        match self.random.weighted(&[
            (45, Step::Deliver),
            (9, Step::Round),
            (ask, Step::Ask),
            (resend, Step::Resend),
            (2, Step::Look),
            (1, Step::Wrong),
            (1, Step::MakeAgain),
        ]) {
            Step::Deliver => {
                let (side, nonce) = (self.side(), self.nonce());
                self.player.say(format!("{side} deliver {nonce}"));
            }
            Step::Round => self.round(4),
            Step::Ask => self.ask_somebody(),
            Step::Resend => {
                let side = self.busy_side();
                self.player.say(format!("{side} resend"));
            }
            Step::Look => {
                let look = *self.random.pick(&["books", "ends", "ladder", "books", "ends"]);
                self.player.say(look);
            }
            Step::Wrong => self.say_wrong(),
            Step::MakeAgain => {
                // Mostly refused, so that the ends stay.
                let line = match self.random.below(10) {
                    0 => make(self.aim, self.random),
                    1..=4 => make_refused(self.random),
                    _ => return,
                };
                self.player.say(line);
            }
        }
    }

    /// An end that is busy, where one is, with now and then one that is not.
    fn busy_side(&mut self) -> Side {
        let side = self.side();
        if self.is_quiet(side) && !self.random.chance(10) { side.other() } else { side }
    }

    fn ask_somebody(&mut self) {
        let side = self.side();
        // A busy end refuses everything; that does not lead far.
        if self.is_quiet(side) || self.random.chance(12) {
            self.ask(side);
        } else if self.is_quiet(side.other()) {
            self.ask(side.other());
        }
    }

    fn ask(&mut self, side: Side) {
        let rows = self.rows(side);
        let weights = match (self.aim, rows.is_empty()) {
            (_, true) => [(80, Ask::Create), (4, Ask::Rekey), (4, Ask::Delete), (12, Ask::Check)],
            (Aim::FullBooks, _) => [(55, Ask::Create), (25, Ask::Rekey), (8, Ask::Delete), (12, Ask::Check)],
            (Aim::Collisions, _) => [(10, Ask::Create), (60, Ask::Rekey), (15, Ask::Delete), (15, Ask::Check)],
            _ => [(30, Ask::Create), (35, Ask::Rekey), (18, Ask::Delete), (17, Ask::Check)],
        };
        match self.random.weighted(&weights) {
            Ask::Create => {
                let nonce = self.nonce();
                let number = self.player.ask(format!("{side} create {nonce}"));
                if number == Some(0) && self.aim == Aim::FullBooks && self.random.chance(50) {
                    // Where one row is left, both creates take it.
                    let nonce = self.nonce();
                    self.plan.push_back(format!("{} create {nonce}", side.other()));
                }
            }
            Ask::Rekey => {
                let own = self.spi(side, &rows);
                let nonce = self.nonce();
                let number = self.player.ask(format!("{side} rekey {own} {nonce}"));
                self.plan_a_crossing(side, own, number);
            }
            Ask::Delete => {
                let own = self.spi(side, &rows);
                let number = self.player.ask(format!("{side} delete {own}"));
                self.plan_a_crossing(side, own, number);
            }
            Ask::Check => {
                self.player.say(format!("{side} check"));
            }
        }
    }

    /// The other end may rekey or delete the same SA before it knows.
    fn plan_a_crossing(&mut self, side: Side, own: u32, number: Option<u8>) {
        let is_accepted = matches!(number, Some(0 | 1));
        let percent = if self.aim == Aim::Collisions { 75 } else { 40 };
        if !is_accepted || !self.random.chance(percent) {
            return;
        }
        let Some(peer) = self.rows(side).iter().find(|row| row.spis.own == own).map(|row| row.spis.peer) else {
            return;
        };
        let other = side.other();
        let nonce = self.right_nonce();
        let line = match self.random.below(10) {
            0..=6 => format!("{other} rekey {peer} {nonce}"),
            _ => format!("{other} delete {peer}"),
        };
        if self.random.chance(15) {
            let nonce = self.right_nonce();
            self.plan.push_back(format!("{} deliver {nonce}", self.random.pick(&Side::BOTH)));
        }
        self.plan.push_back(line);
        if self.random.chance(60) {
            self.plan_an_order_of_deliveries();
        }
    }

    /// Deliveries in an order in which rounds do not bring them.
    fn plan_an_order_of_deliveries(&mut self) {
        for _ in 0..self.random.between(1, 6) {
            let nonce = self.right_nonce();
            let side = self.side();
            self.plan.push_back(format!("{side} deliver {nonce}"));
        }
    }

    /// Mostly the SPI of a row that may be rekeyed or deleted, else one that was, or never was.
    fn spi(&mut self, side: Side, rows: &[Row]) -> u32 {
        let may: Vec<u32> = rows.iter().filter(|row| row.state == State::Standing).map(|row| row.spis.own).collect();
        if self.random.chance(75)
            && let Some(own) = self.random.pick_or_none(&may)
        {
            return *own;
        }
        if self.random.chance(75)
            && let Some(row) = self.random.pick_or_none(rows)
        {
            return row.spis.own;
        }
        let next = self.end(side).and_then(|end| end.next_spi().peek()).unwrap_or(u32::MAX);
        match self.random.below(6) {
            0 => next,
            1 => next.wrapping_sub(self.random.between(1, 8) as u32),
            2 => *self.random.pick(&[0, 1, 255, 256, u32::MAX]),
            3 => self.random.number(),
            _ => self.random.pick_or_none(rows).map_or(next, |row| row.spis.peer),
        }
    }

    fn say_wrong(&mut self) {
        let nonce = self.nonce();
        let side = self.side();
        let line = match self.random.below(8) {
            0 => format!("{side} create {nonce}"),
            1 => format!("{side} rekey 1000 {nonce}"),
            2 => format!("{side} delete 1000"),
            3 => format!("{side} deliver {nonce}"),
            4 => format!("round {} {nonce}", self.random.pick(&[0, 1, 101])),
            5 => format!("{side} check"),
            6 => (*self.random.pick(&["books", "ends", "ladder"])).to_string(),
            _ => make(Aim::Spent, self.random),
        };
        self.player.say(wrong::spoil(&line, self.random));
    }

    /// Mostly the ends come to rest; and all that they have is looked at.
    fn finish(&mut self) {
        for line in std::mem::take(&mut self.plan) {
            self.player.say(line);
        }
        if self.random.chance(70) {
            for _ in 0..self.random.between(0, 2) {
                for side in Side::BOTH {
                    if !self.is_quiet(side) && self.random.chance(60) {
                        self.player.say(format!("{side} resend"));
                    }
                }
                self.round(3);
            }
            let nonce = self.right_nonce();
            self.player.say(format!("round 8 {nonce}"));
        }
        for look in ["ends", "books", "ladder"] {
            self.player.say(look);
        }
    }
}
