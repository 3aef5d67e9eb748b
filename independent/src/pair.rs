//! A pair of ends over a channel of their own, with the picture of their messages and the law they must keep.

use crate::book::{Book, BookKind, FIRST_SPI, audit};
use crate::channel::{BottomKind, Channel, Fate, LONGEST_OF_ALL, Plan, WrongLongest};
use crate::end::{Answer, Beginning, Deed, Delivery, End, Line};
use crate::ladder::Ladder;
use crate::law::Chronicle;
use crate::message::{self, IkeSpis};
use crate::side::Side;

/// What two ends are made by, each pair for A and for B.
#[derive(Clone, PartialEq, Eq, Debug)]
pub struct Making {
    pub channel: Plan,
    pub first_ids: [u32; 2],
    pub first_spis: [u32; 2],
    pub ike: IkeSpis,
    pub books: [BookKind; 2],
}

/// Why two ends are not made.
#[derive(Clone, Copy, PartialEq, Eq, Debug)]
pub enum NotMade {
    WrongLongest,
    ReservedSpi,
}

impl NotMade {
    pub fn number(self) -> u8 {
        match self {
            NotMade::WrongLongest => WrongLongest::NUMBER,
            NotMade::ReservedSpi => 10,
        }
    }
}

/// A call of one end.
#[derive(Clone, PartialEq, Eq, Debug)]
pub enum Call {
    Create { nonce: Vec<u8> },
    Rekey { own: u32, nonce: Vec<u8> },
    Delete { own: u32 },
    Check,
    Resend,
    Deliver { nonce: Vec<u8> },
}

/// The channel of two ends; whatever goes over it is drawn.
struct DrawnLine {
    channel: Channel,
    ladder: Ladder,
    fates: Vec<Option<Fate>>,
}

impl Line for DrawnLine {
    fn send(&mut self, to: Side, datagram: &[u8]) -> bool {
        let fate = self.channel.send(to, datagram);
        self.ladder.sent(to.other(), datagram, fate);
        self.fates.push(fate);
        fate.is_some()
    }

    fn receive(&mut self, at: Side) -> Option<Vec<u8>> {
        let datagram = self.channel.receive(at, LONGEST_OF_ALL)?;
        self.ladder.came(at, &datagram);
        Some(datagram)
    }
}

pub struct Pair {
    a: End,
    b: End,
    line: DrawnLine,
    chronicle: Chronicle,
    violation: Option<String>,
    last_deed: Option<Deed>,
}

impl Pair {
    pub fn make(making: Making) -> Result<Pair, NotMade> {
        let channel = Channel::make(making.channel).map_err(|WrongLongest| NotMade::WrongLongest)?;
        if making.first_spis.iter().any(|&spi| spi < FIRST_SPI) {
            return Err(NotMade::ReservedSpi);
        }
        let beginning = |side: Side| Beginning {
            ike: making.ike,
            first_id: making.first_ids[side.index()],
            first_id_of_peer: making.first_ids[side.other().index()],
            first_spi: making.first_spis[side.index()],
            book: Book::new(making.books[side.index()]),
        };
        let keeps_all = !matches!(channel.kind(), BottomKind::Trace { .. });
        let must_come_to_rest = keeps_all && channel.longest() >= message::LONGEST;
        Ok(Pair {
            a: End::new(Side::A, beginning(Side::A)),
            b: End::new(Side::B, beginning(Side::B)),
            line: DrawnLine { channel, ladder: Ladder::default(), fates: Vec::new() },
            chronicle: Chronicle::new(must_come_to_rest),
            violation: None,
            last_deed: None,
        })
    }

    pub fn call(&mut self, side: Side, call: &Call) -> Answer {
        self.line.fates.clear();
        self.last_deed = None;
        let (end, line) = match side {
            Side::A => (&mut self.a, &mut self.line),
            Side::B => (&mut self.b, &mut self.line),
        };
        let answer = match call {
            Call::Create { nonce } => end.create(line, nonce),
            Call::Rekey { own, nonce } => end.rekey(line, *own, nonce),
            Call::Delete { own } => end.delete(line, *own),
            Call::Check => end.check(line),
            Call::Resend => end.resend(line),
            Call::Deliver { nonce } => self.deliver(side, nonce),
        };
        self.note(side, call, answer);
        answer
    }

    fn deliver(&mut self, side: Side, nonce: &[u8]) -> Answer {
        let end = match side {
            Side::A => &mut self.a,
            Side::B => &mut self.b,
        };
        let steps = self.line.ladder.len();
        let Delivery { answer, deed } = end.deliver(&mut self.line, nonce);
        let something_came = self.line.ladder.len() > steps;
        if something_came && !answer.is_accepted() {
            self.line.ladder.refuse_last(answer.number());
        }
        self.last_deed = deed;
        answer
    }

    fn note(&mut self, side: Side, call: &Call, answer: Answer) {
        match call {
            Call::Create { .. } | Call::Check => self.chronicle.note_ask(side, None, answer),
            Call::Rekey { own, .. } | Call::Delete { own } => self.chronicle.note_ask(side, Some(*own), answer),
            Call::Resend => self.chronicle.note_resend(answer),
            Call::Deliver { .. } => self.chronicle.note_delivery(side, answer, self.last_deed.as_ref()),
        }
        if self.violation.is_none() {
            self.violation = self.chronicle.check(&self.a, &self.b).err();
        }
    }

    pub fn end(&self, side: Side) -> &End {
        match side {
            Side::A => &self.a,
            Side::B => &self.b,
        }
    }

    pub fn is_quiet(&self) -> bool {
        self.a.is_quiet() && self.b.is_quiet()
    }

    pub fn channel(&self) -> &Channel {
        &self.line.channel
    }

    pub fn ladder(&self) -> &Ladder {
        &self.line.ladder
    }

    /// The first break of the law, if there was one.
    pub fn violation(&self) -> Option<&str> {
        self.violation.as_deref()
    }

    /// What the last call did, where it was a delivery that was processed.
    pub fn last_deed(&self) -> Option<&Deed> {
        self.last_deed.as_ref()
    }

    /// The fates of what the last call sent.
    pub fn last_fates(&self) -> &[Option<Fate>] {
        &self.line.fates
    }

    /// Both books with their rows, and what an audit of them finds.
    pub fn books(&self) -> String {
        let mut lines = Vec::new();
        for side in Side::BOTH {
            let book = self.end(side).book();
            lines.push(format!("book {side} {}, {} of {}", book.kind(), book.len(), crate::book::CAPACITY));
            lines.extend(book.rows().map(ToString::to_string));
        }
        lines.push(audit(self.a.book(), self.b.book()).to_string());
        lines.join("\n")
    }

    pub fn ends(&self) -> String {
        format!("{}\n{}", self.a, self.b)
    }
}

#[cfg(test)]
mod tests {
    use super::*;

    fn pair(bottom: BottomKind) -> Pair {
        Pair::make(Making {
            channel: Plan { bottom, longest: 160, markers: 0 },
            first_ids: [0, 0],
            first_spis: [1000, 2000],
            ike: IkeSpis { a: [1; 8], b: [2; 8] },
            books: [BookKind::Ordered, BookKind::Table],
        })
        .unwrap_or_else(|reason| panic!("{reason:?}"))
    }

    fn call(pair: &mut Pair, side: Side, call: Call) -> u8 {
        pair.call(side, &call).number()
    }

    fn deliver(pair: &mut Pair, side: Side, octet: u8) -> u8 {
        call(pair, side, Call::Deliver { nonce: vec![octet; 16] })
    }

    fn created(bottom: BottomKind) -> Pair {
        let mut pair = pair(bottom);
        assert_eq!(call(&mut pair, Side::A, Call::Create { nonce: vec![1; 16] }), 0);
        assert_eq!(deliver(&mut pair, Side::B, 2), 0);
        assert_eq!(deliver(&mut pair, Side::A, 3), 0);
        pair
    }

    #[test]
    fn a_collision_leaves_the_winner_alone() {
        let mut pair = created(BottomKind::Queue);
        assert_eq!(call(&mut pair, Side::B, Call::Rekey { own: 2000, nonce: vec![4; 16] }), 25);
        assert_eq!(call(&mut pair, Side::A, Call::Check), 0);
        deliver(&mut pair, Side::B, 5);
        deliver(&mut pair, Side::A, 5);
        assert_eq!(call(&mut pair, Side::A, Call::Rekey { own: 1000, nonce: vec![6; 16] }), 0);
        assert_eq!(call(&mut pair, Side::B, Call::Rekey { own: 2000, nonce: vec![4; 16] }), 0);
        for _ in 0..4 {
            deliver(&mut pair, Side::A, 9);
            deliver(&mut pair, Side::B, 8);
        }
        assert!(pair.is_quiet());
        assert_eq!(pair.violation(), None);
        // B's exchange holds the lowest nonce, so A's new SA, 1001, is the one that stays.
        let left: Vec<u32> = pair.end(Side::A).book().rows().map(|row| row.spis.own).collect();
        assert_eq!(left, [1001]);
    }

    #[test]
    fn a_repeated_request_gets_the_stored_reply() {
        let mut pair = pair(BottomKind::Trace { fates: vec!['2', 'l'] });
        assert_eq!(call(&mut pair, Side::A, Call::Create { nonce: vec![1; 16] }), 0);
        assert_eq!(deliver(&mut pair, Side::B, 2), 0);
        assert_eq!(deliver(&mut pair, Side::A, 2), 31);
        assert_eq!(deliver(&mut pair, Side::B, 3), 2);
        assert_eq!(deliver(&mut pair, Side::A, 2), 0);
        assert_eq!(call(&mut pair, Side::A, Call::Resend), 28);
        assert_eq!(pair.end(Side::B).book().len(), 1);
        assert!(pair.is_quiet() && pair.violation().is_none());
    }

    #[test]
    fn a_wrong_reply_nonce_leaves_the_datagram() {
        let mut pair = pair(BottomKind::Queue);
        assert_eq!(call(&mut pair, Side::A, Call::Create { nonce: vec![1; 15] }), 20);
        assert_eq!(call(&mut pair, Side::A, Call::Check), 0);
        assert_eq!(call(&mut pair, Side::B, Call::Deliver { nonce: vec![] }), 30);
        assert_eq!(deliver(&mut pair, Side::B, 1), 0);
        assert_eq!(pair.ends(), "A next 1 expected 0 spi 1000 check id 0\nB next 0 expected 1 spi 2000 quiet");
    }
}
