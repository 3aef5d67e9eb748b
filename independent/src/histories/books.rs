//! Histories of two books, with few SPIs, so that they meet.

use crate::book::{Book, Row, Spis};
use crate::nonce::Nonce;
use crate::side::Side;

use super::nonces::Family;
use super::player::Player;
use super::random::Random;

pub fn play(player: &mut Player, random: &mut Random) {
    for side in Side::BOTH {
        player.say(format!("book {} {side}", random.pick(&["ordered", "table"])));
    }
    let mut shelf = Shelf { spis: spis(random), family: Family::new(random), player, random };
    if shelf.random.chance(30) {
        shelf.fill();
    }
    let steps = shelf.random.weighted(&[(40, 25), (40, 60), (20, 150)]);
    for _ in 0..shelf.random.between(steps / 3, steps) {
        shelf.step();
    }
    shelf.walk_through();
}

/// Few SPIs, many of which have one hashed place.
fn spis(random: &mut Random) -> Vec<u32> {
    let mut spis = vec![0, 255, 256, u32::MAX];
    let count = *random.pick(&[4, 10, 24, 40]);
    let start = *random.pick(&[256, 1000, 4_294_967_000, 65_536]);
    let step = *random.pick(&[1, 8, 16, 17, 64]);
    spis.extend(
        (0..count).map(|place: u32| start + place * step / 2 * 2 % 300 + if step == 1 { place % 2 } else { 0 }),
    );
    if random.chance(50) {
        spis.extend((0..6).map(|_| random.number()));
    }
    spis
}

struct Shelf<'p> {
    player: &'p mut Player,
    random: &'p mut Random,
    spis: Vec<u32>,
    family: Family,
}

#[derive(Clone, Copy)]
enum Step {
    Put,
    Write,
    Read,
    Drop,
    Find,
    Next,
    Rows,
    Audit,
    Mirror,
    Restart,
}

impl Shelf<'_> {
    fn side(&mut self) -> Side {
        *self.random.pick(&Side::BOTH)
    }

    fn spi(&mut self) -> u32 {
        *self.random.pick(&self.spis)
    }

    fn rows(&self, side: Side) -> Vec<Row> {
        self.player.session.book(side).map_or_else(Vec::new, |book: &Book| book.rows().cloned().collect())
    }

    /// Mostly one of a row that is there.
    fn known_spi(&mut self, side: Side) -> u32 {
        let rows = self.rows(side);
        match self.random.pick_or_none(&rows) {
            Some(row) if self.random.chance(70) => row.spis.own,
            _ => self.spi(),
        }
    }

    fn nonce(&mut self) -> String {
        if self.random.chance(8) { "-".to_string() } else { self.family.right(self.random) }
    }

    fn row(&mut self, own: u32) -> String {
        let state = self.random.between(1, 5);
        let began = self.random.below(2);
        let peer = if state == 1 && self.random.chance(80) { 0 } else { self.spi() };
        let parent = if self.random.chance(60) { (0, 0) } else { (self.spi(), self.spi()) };
        let (ni, nr) = (self.nonce(), self.nonce());
        format!("row {own} {peer} {state} {began} parent {} {} ni {ni} nr {nr}", parent.0, parent.1)
    }

    fn fill(&mut self) {
        let side = self.side();
        let base = *self.random.pick(&[256, 1000, 5000]);
        let step = *self.random.pick(&[1, 8, 16, 256]);
        for place in 0..self.random.between(12, 18) as u32 {
            let row = self.row(base + step * place);
            self.spis.push(base + step * place);
            self.player.say(format!("put {side} {row}"));
        }
    }

    fn step(&mut self) {
        let side = self.side();
        match self.random.weighted(&[
            (25, Step::Put),
            (14, Step::Write),
            (10, Step::Read),
            (16, Step::Drop),
            (10, Step::Find),
            (6, Step::Next),
            (4, Step::Rows),
            (8, Step::Audit),
            (12, Step::Mirror),
            (1, Step::Restart),
        ]) {
            Step::Put => {
                let own = self.spi();
                let row = self.row(own);
                self.player.say(format!("put {side} {row}"));
            }
            Step::Write => {
                let own = self.known_spi(side);
                let row = self.row(own);
                self.player.say(format!("write {side} {row}"));
            }
            Step::Read => {
                let own = self.known_spi(side);
                self.player.say(format!("read {side} {own}"));
            }
            Step::Drop => {
                let own = self.known_spi(side);
                self.player.say(format!("drop {side} {own}"));
            }
            Step::Find => {
                let peer = self.peer_spi(side);
                self.player.say(format!("find {side} {peer}"));
            }
            Step::Next => {
                let own = self.known_spi(side);
                self.player.say(format!("next {side} {own}"));
            }
            Step::Rows => {
                self.player.say(format!("rows {side}"));
            }
            Step::Audit => {
                self.player.say("audit");
            }
            Step::Mirror => self.mirror(side),
            Step::Restart => {
                self.player.say(format!("book {} {side}", self.random.pick(&["ordered", "table"])));
            }
        }
    }

    fn peer_spi(&mut self, side: Side) -> u32 {
        let rows = self.rows(side);
        match self.random.pick_or_none(&rows) {
            Some(row) if self.random.chance(75) => row.spis.peer,
            _ => self.spi(),
        }
    }

    /// Makes both books of rows with their mirrors, or all but one thing of a mirror, and audits them.
    fn mirror(&mut self, side: Side) {
        let other = side.other();
        if self.random.chance(35) {
            // Books with few rows have a chance that all are mirrored.
            for (book, kind) in [(side, "ordered"), (other, "table")] {
                self.player.say(format!("book {kind} {book}"));
            }
            for place in 0..self.random.between(0, 4) as u32 {
                let began = self.random.below(2);
                let (ni, nr) = (self.nonce(), self.nonce());
                let (own, peer) = (1000 + place, 2000 + self.random.between(0, 30) as u32);
                self.player.say(format!("put {side} row {own} {peer} 3 {began} parent {place} 7 ni {ni} nr {nr}"));
            }
        }
        for row in self.rows(side) {
            let mirror = self.mirror_of(&row);
            let verb = if self.random.chance(50) { "write" } else { "put" };
            self.player.say(format!("{verb} {other} {mirror}"));
            if verb == "write" {
                self.player.say(format!("put {other} {mirror}"));
            }
        }
        self.player.say("audit");
    }

    fn mirror_of(&mut self, row: &Row) -> Row {
        let mut mirror = Row {
            spis: row.spis.exchanged(),
            parent: row.parent.exchanged(),
            began: if row.began.number() == 0 { crate::book::Began::Peer } else { crate::book::Began::Here },
            ..row.clone()
        };
        if self.random.chance(80) {
            return mirror;
        }
        match self.random.below(7) {
            0 => mirror.began = row.began,
            1 => mirror.parent = row.parent,
            2 => mirror.spis.peer = self.spi(),
            3 => mirror.initiator_nonce = mirror.kept_responder_nonce.clone(),
            4 => mirror.kept_responder_nonce = self.near(mirror.kept_responder_nonce.as_ref()),
            5 => mirror.state = *self.random.pick(&crate::book::State::ALL),
            _ => mirror.parent = Spis { own: row.parent.peer, peer: self.spi() },
        }
        mirror
    }

    fn near(&mut self, nonce: Option<&Nonce>) -> Option<Nonce> {
        let mut octets = nonce?.octets().to_vec();
        let last = octets.len() - 1;
        octets[last] ^= 1;
        if self.random.chance(30) {
            octets.truncate(last);
        }
        Nonce::new(&octets)
    }

    /// All rows of both books.
    fn walk_through(&mut self) {
        for side in Side::BOTH {
            self.player.say(format!("rows {side}"));
            self.player.say(format!("next {side} 0"));
            for row in self.rows(side) {
                self.player.say(format!("read {side} {}", row.spis.own));
                self.player.say(format!("next {side} {}", row.spis.own));
                if self.random.chance(30) {
                    self.player.say(format!("find {side} {}", row.spis.peer));
                }
            }
        }
        self.player.say("audit");
    }
}
