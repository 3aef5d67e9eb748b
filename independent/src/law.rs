//! What must hold of two ends at each moment, checked over the history of a run and not over the ends' own reasons.

use std::collections::{BTreeMap, BTreeSet};

use crate::book::{Audit, Spis, audit};
use crate::end::{Answer, Deed, End};
use crate::message::{Request, Response};
use crate::nonce::Exchange;
use crate::side::Side;

/// An SA by A's SPI and by B's.
#[derive(Clone, Copy, PartialEq, Eq, PartialOrd, Ord, Debug)]
struct Sa {
    a: u32,
    b: u32,
}

impl Sa {
    fn seen_by(side: Side, spis: Spis) -> Sa {
        match side {
            Side::A => Sa { a: spis.own, b: spis.peer },
            Side::B => Sa { a: spis.peer, b: spis.own },
        }
    }

    fn own_spi(self, side: Side) -> u32 {
        match side {
            Side::A => self.a,
            Side::B => self.b,
        }
    }

    /// Whether a book of these ends has a row of it, by either SPI.
    fn is_in_book_of(self, side: Side, end: &End) -> bool {
        end.book().rows().any(|row| Sa::seen_by(side, row.spis) == self)
    }
}

/// A rekey that an end answered with a new SA.
#[derive(Clone, Debug)]
struct AnsweredRekey {
    new: Sa,
    exchange: Exchange,
}

/// Without losses and resends the ends come to rest within so many rounds after the last accepted ask.
const ROUNDS_TO_REST: u32 = 8;

/// Counts the rounds since the last accepted ask: a delivery to A and then one to B, whatever lies between.
#[derive(Clone, Default, Debug)]
struct RestClock {
    rounds: u32,
    a_had_its_delivery: bool,
    was_there_a_resend: bool,
}

impl RestClock {
    fn restart(&mut self) {
        self.rounds = 0;
        self.a_had_its_delivery = false;
    }

    fn delivered(&mut self, at: Side) {
        match at {
            Side::A => self.a_had_its_delivery = true,
            Side::B if self.a_had_its_delivery => {
                self.rounds += 1;
                self.a_had_its_delivery = false;
            }
            Side::B => {}
        }
    }
}

/// What has happened between two ends since they were made.
#[derive(Clone, Debug)]
pub struct Chronicle {
    /// By the SA that was rekeyed, the answers of A and of B.
    rekeyed: BTreeMap<Sa, [Vec<AnsweredRekey>; 2]>,
    created: BTreeSet<Sa>,
    /// The own SPIs of which an end accepted a rekey or a delete.
    asked: BTreeSet<(Side, u32)>,
    rest: RestClock,
    /// Whether the channel keeps all that is sent and is wide enough for every message.
    must_come_to_rest: bool,
}

impl Chronicle {
    pub fn new(must_come_to_rest: bool) -> Chronicle {
        Chronicle {
            rekeyed: BTreeMap::new(),
            created: BTreeSet::new(),
            asked: BTreeSet::new(),
            rest: RestClock::default(),
            must_come_to_rest,
        }
    }

    /// An ask was answered; `of` is the own SPI that it was to rekey or to delete.
    pub fn note_ask(&mut self, side: Side, of: Option<u32>, answer: Answer) {
        if !answer.is_accepted() {
            return;
        }
        self.rest.restart();
        if let Some(own) = of {
            self.asked.insert((side, own));
        }
    }

    pub fn note_resend(&mut self, answer: Answer) {
        self.rest.was_there_a_resend |= answer.is_accepted();
    }

    pub fn note_delivery(&mut self, at: Side, answer: Answer, deed: Option<&Deed>) {
        if answer != Answer::WrongReplyNonce {
            self.rest.delivered(at);
        }
        if let Some(Deed::Answered { request, response: Response::New { spi, nonce }, rekeyed, .. }) = deed {
            match (request, rekeyed) {
                (Request::Create { spi: of_peer, .. }, _) => {
                    self.created.insert(Sa::seen_by(at, Spis { own: *spi, peer: *of_peer }));
                }
                (Request::Rekey { spi: of_peer, nonce: of_initiator, .. }, Some(old)) => {
                    let new = Sa::seen_by(at, Spis { own: *spi, peer: *of_peer });
                    let exchange = Exchange { initiator: of_initiator.clone(), responder: nonce.clone() };
                    let answers = self.rekeyed.entry(Sa::seen_by(at, *old)).or_default();
                    answers[at.index()].push(AnsweredRekey { new, exchange });
                }
                _ => {}
            }
        }
    }

    /// What is wrong at this moment, if something is.
    pub fn check(&self, a: &End, b: &End) -> Result<(), String> {
        let ends = [a, b];
        if ends.iter().all(|end| end.is_quiet()) {
            check_mirrors(ends)?;
            self.check_succession(ends)
        } else if self.must_come_to_rest && !self.rest.was_there_a_resend && self.rest.rounds >= ROUNDS_TO_REST {
            Err(format!("no rest after {} rounds", self.rest.rounds))
        } else {
            Ok(())
        }
    }

    fn check_succession(&self, ends: [&End; 2]) -> Result<(), String> {
        for (old, answers) in &self.rekeyed {
            check_absent(*old, ends, "was rekeyed")?;
            self.check_heirs(*old, answers, ends)?;
        }
        for created in &self.created {
            if !self.rekeyed.contains_key(created) {
                self.check_kept(*created, ends)?;
            }
        }
        Ok(())
    }

    fn check_heirs(&self, old: Sa, answers: &[Vec<AnsweredRekey>; 2], ends: [&End; 2]) -> Result<(), String> {
        match (answers[0].as_slice(), answers[1].as_slice()) {
            ([only], []) | ([], [only]) => self.check_heir(only.new, ends),
            ([by_a], [by_b]) => {
                // B answered A's rekey, so that exchange is A's.
                let (loser, winner) = if a_loses(&by_b.exchange, &by_a.exchange) { (by_b, by_a) } else { (by_a, by_b) };
                check_absent(loser.new, ends, "lost a collision")?;
                self.check_heir(winner.new, ends)
            }
            _ => Err(format!("an end answered more than one rekey of {old:?} with a new SA")),
        }
    }

    /// An heir is there unless it was itself rekeyed, which is looked at in its turn, or an end was asked.
    fn check_heir(&self, heir: Sa, ends: [&End; 2]) -> Result<(), String> {
        if self.rekeyed.contains_key(&heir) { Ok(()) } else { self.check_kept(heir, ends) }
    }

    fn check_kept(&self, sa: Sa, ends: [&End; 2]) -> Result<(), String> {
        let was_asked_for = Side::BOTH.into_iter().any(|side| self.asked.contains(&(side, sa.own_spi(side))));
        let is_in_both = Side::BOTH.into_iter().all(|side| sa.is_in_book_of(side, ends[side.index()]));
        if was_asked_for || is_in_both { Ok(()) } else { Err(format!("{sa:?} is gone, and nobody asked for that")) }
    }
}

fn check_mirrors(ends: [&End; 2]) -> Result<(), String> {
    match audit(ends[0].book(), ends[1].book()) {
        Audit::AllHaveMirrors => Ok(()),
        found => Err(format!("both ends are quiet, and {found}")),
    }
}

fn check_absent(sa: Sa, ends: [&End; 2], why: &str) -> Result<(), String> {
    for side in Side::BOTH {
        if sa.is_in_book_of(side, ends[side.index()]) {
            return Err(format!("{sa:?} {why} and is left in the book of {side}"));
        }
    }
    Ok(())
}

/// The lowest of A's nonces is no higher than the lowest of B's.
fn a_loses(of_a: &Exchange, of_b: &Exchange) -> bool {
    lowest(of_a) <= lowest(of_b)
}

/// Whether both exchanges hold the lowest of the four nonces.
pub fn is_tied(one: &Exchange, another: &Exchange) -> bool {
    lowest(one) == lowest(another)
}

fn lowest(exchange: &Exchange) -> &[u8] {
    exchange.initiator.octets().min(exchange.responder.octets())
}
