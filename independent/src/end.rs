//! One end of an IKE SA: what it does when it is asked for something and when a datagram comes.

use std::fmt;

use crate::book::{Began, Book, FIRST_SPI, Row, Spis, State};
use crate::message::{Body, Failure, IkeSpis, Message, Request, Response, Unreadable};
use crate::nonce::{Exchange, Nonce, loser};
use crate::side::Side;

/// What an end sends over and receives from.
pub trait Line {
    /// Whether the datagram was taken.
    fn send(&mut self, to: Side, datagram: &[u8]) -> bool;
    fn receive(&mut self, at: Side) -> Option<Vec<u8>>;
}

/// Numbers that are used once each, up to the greatest of 32 bits, and then are spent.
#[derive(Clone, Copy, PartialEq, Eq, Debug)]
pub struct Counter {
    next: u64,
}

impl Counter {
    pub fn from(first: u32) -> Counter {
        Counter { next: u64::from(first) }
    }

    pub fn left(self) -> u64 {
        (1 << 32) - self.next
    }

    pub fn is_spent(self) -> bool {
        self.left() == 0
    }

    /// The next number, unless all are spent.
    pub fn peek(self) -> Option<u32> {
        u32::try_from(self.next).ok()
    }

    fn is_just_past(self, number: u32) -> bool {
        self.next == u64::from(number) + 1
    }

    fn advance(&mut self) {
        self.next += 1;
    }
}

impl fmt::Display for Counter {
    fn fmt(&self, f: &mut fmt::Formatter<'_>) -> fmt::Result {
        match self.peek() {
            Some(next) => write!(f, "{next}"),
            None => f.write_str("spent"),
        }
    }
}

/// What an outstanding request is about.
#[derive(Clone, PartialEq, Eq, Debug)]
pub enum Asked {
    Create {
        own: u32,
    },
    /// `collision` has the nonces of the peer's exchange, where the peer rekeyed the same SA.
    Rekey {
        own: u32,
        old: u32,
        collision: Option<Exchange>,
    },
    Delete {
        own: u32,
    },
    Check,
}

#[derive(Clone, PartialEq, Eq, Debug)]
pub struct Outstanding {
    pub id: u32,
    pub asked: Asked,
    octets: Vec<u8>,
}

impl fmt::Display for Outstanding {
    fn fmt(&self, f: &mut fmt::Formatter<'_>) -> fmt::Result {
        let id = self.id;
        match &self.asked {
            Asked::Create { own } => write!(f, "create id {id} own {own}"),
            Asked::Rekey { own, old, collision } => {
                write!(f, "rekey id {id} own {own} old {old}")?;
                if collision.is_some() { f.write_str(" collision") } else { Ok(()) }
            }
            Asked::Delete { own } => write!(f, "delete id {id} own {own}"),
            Asked::Check => write!(f, "check id {id}"),
        }
    }
}

/// The answer of a call.
#[derive(Clone, Copy, PartialEq, Eq, Debug)]
pub enum Answer {
    Done,
    NotTaken,
    Repeated,
    RepeatNotTaken,
    WrongNonce,
    Busy,
    IdsSpent,
    SpisSpent,
    NoRow,
    RowIsFresh,
    RowIsSuperseded,
    BookFull,
    NothingOutstanding,
    WrongReplyNonce,
    NothingCame,
    NotFromThePeer,
    IdDoesNotCount,
    Unreadable(Unreadable),
}

impl Answer {
    pub fn number(self) -> u8 {
        match self {
            Answer::Done => 0,
            Answer::NotTaken => 1,
            Answer::Repeated => 2,
            Answer::RepeatNotTaken => 3,
            Answer::WrongNonce => 20,
            Answer::Busy => 21,
            Answer::IdsSpent => 22,
            Answer::SpisSpent => 23,
            Answer::NoRow => 24,
            Answer::RowIsFresh => 25,
            Answer::RowIsSuperseded => 26,
            Answer::BookFull => 27,
            Answer::NothingOutstanding => 28,
            Answer::WrongReplyNonce => 30,
            Answer::NothingCame => 31,
            Answer::NotFromThePeer => 33,
            Answer::IdDoesNotCount => 34,
            Answer::Unreadable(check) => check.number(),
        }
    }

    /// Whether the call was carried out, rather than refused.
    pub fn is_accepted(self) -> bool {
        self.number() < 10
    }

    fn sent(taken: bool) -> Answer {
        if taken { Answer::Done } else { Answer::NotTaken }
    }

    fn sent_again(taken: bool) -> Answer {
        if taken { Answer::Repeated } else { Answer::RepeatNotTaken }
    }
}

/// What a delivery did, for whoever keeps a history.
#[derive(Clone, PartialEq, Eq, Debug)]
pub enum Deed {
    /// A request was processed. `rekeyed` has the SA that a new one was made to replace.
    Answered { request: Request, response: Response, rekeyed: Option<Spis>, collision: bool },
    /// The response to the outstanding request was processed. `own_lost` tells who lost a recorded collision, and
    /// `old_was_there` whether the row that was to be rekeyed still was.
    Settled { asked: Asked, response: Response, own_lost: Option<bool>, old_was_there: bool },
}

#[derive(Clone, PartialEq, Eq, Debug)]
pub struct Delivery {
    pub answer: Answer,
    pub deed: Option<Deed>,
}

impl Delivery {
    fn only(answer: Answer) -> Delivery {
        Delivery { answer, deed: None }
    }
}

pub struct End {
    side: Side,
    ike: IkeSpis,
    next_id: Counter,
    expected: Counter,
    stored_reply: Option<Vec<u8>>,
    next_spi: Counter,
    book: Book,
    outstanding: Option<Outstanding>,
}

/// What an end is made of beside its side.
pub struct Beginning {
    pub ike: IkeSpis,
    pub first_id: u32,
    pub first_id_of_peer: u32,
    pub first_spi: u32,
    pub book: Book,
}

impl End {
    pub fn new(side: Side, beginning: Beginning) -> End {
        End {
            side,
            ike: beginning.ike,
            next_id: Counter::from(beginning.first_id),
            expected: Counter::from(beginning.first_id_of_peer),
            stored_reply: None,
            next_spi: Counter::from(beginning.first_spi),
            book: beginning.book,
            outstanding: None,
        }
    }

    pub fn book(&self) -> &Book {
        &self.book
    }

    pub fn outstanding(&self) -> Option<&Outstanding> {
        self.outstanding.as_ref()
    }

    pub fn is_quiet(&self) -> bool {
        self.outstanding.is_none()
    }

    pub fn next_id(&self) -> Counter {
        self.next_id
    }

    pub fn expected(&self) -> Counter {
        self.expected
    }

    pub fn next_spi(&self) -> Counter {
        self.next_spi
    }

    // Asks.

    pub fn create(&mut self, line: &mut impl Line, nonce: &[u8]) -> Answer {
        match self.check_create(nonce) {
            Ok((nonce, own)) => {
                self.open(own, Spis::NONE, &nonce);
                self.request(line, Asked::Create { own }, Request::Create { spi: own, nonce })
            }
            Err(refusal) => refusal,
        }
    }

    fn check_create(&self, nonce: &[u8]) -> Result<(Nonce, u32), Answer> {
        let nonce = Nonce::new(nonce).ok_or(Answer::WrongNonce)?;
        self.check_quiet_with_ids(1)?;
        let own = self.next_spi.peek().ok_or(Answer::SpisSpent)?;
        self.check_room()?;
        Ok((nonce, own))
    }

    pub fn rekey(&mut self, line: &mut impl Line, old: u32, nonce: &[u8]) -> Answer {
        match self.check_rekey(old, nonce) {
            Ok((nonce, own, parent)) => {
                self.open(own, parent, &nonce);
                let asked = Asked::Rekey { own, old, collision: None };
                self.request(line, asked, Request::Rekey { old, spi: own, nonce })
            }
            Err(refusal) => refusal,
        }
    }

    fn check_rekey(&self, old: u32, nonce: &[u8]) -> Result<(Nonce, u32, Spis), Answer> {
        let nonce = Nonce::new(nonce).ok_or(Answer::WrongNonce)?;
        // Its Delete will need an ID too.
        self.check_quiet_with_ids(2)?;
        let own = self.next_spi.peek().ok_or(Answer::SpisSpent)?;
        let parent = self.check_row(old)?.spis;
        self.check_room()?;
        Ok((nonce, own, parent))
    }

    pub fn delete(&mut self, line: &mut impl Line, own: u32) -> Answer {
        match self.check_quiet_with_ids(1).and_then(|()| self.check_row(own).map(drop)) {
            Ok(()) => Answer::sent(self.close(line, own)),
            Err(refusal) => refusal,
        }
    }

    pub fn check(&mut self, line: &mut impl Line) -> Answer {
        match self.check_quiet_with_ids(1) {
            Ok(()) => self.request(line, Asked::Check, Request::Empty),
            Err(refusal) => refusal,
        }
    }

    pub fn resend(&mut self, line: &mut impl Line) -> Answer {
        match &self.outstanding {
            Some(outstanding) => Answer::sent(line.send(self.side.other(), &outstanding.octets)),
            None => Answer::NothingOutstanding,
        }
    }

    fn check_quiet_with_ids(&self, needed: u64) -> Result<(), Answer> {
        if !self.is_quiet() {
            Err(Answer::Busy)
        } else if self.next_id.left() < needed {
            Err(Answer::IdsSpent)
        } else {
            Ok(())
        }
    }

    fn check_row(&self, own: u32) -> Result<&Row, Answer> {
        let row = self.book.read(own).map_err(|_| Answer::NoRow)?;
        match row.state {
            State::Fresh => Err(Answer::RowIsFresh),
            State::Superseded => Err(Answer::RowIsSuperseded),
            State::Opening | State::Standing | State::Closing => Ok(row),
        }
    }

    fn check_room(&self) -> Result<(), Answer> {
        if self.book.is_full() { Err(Answer::BookFull) } else { Ok(()) }
    }

    /// Files the Opening row of a request for a new SA, under the next own SPI.
    fn open(&mut self, own: u32, parent: Spis, nonce: &Nonce) {
        self.put(Row {
            spis: Spis { own, peer: 0 },
            state: State::Opening,
            began: Began::Here,
            parent,
            initiator_nonce: Some(nonce.clone()),
            kept_responder_nonce: None,
        });
    }

    /// Files a row under the next own SPI, which is used up by it.
    fn put(&mut self, row: Row) {
        self.next_spi.advance();
        let filed = self.book.put(row);
        debug_assert_eq!(filed, Ok(()), "room and an unused SPI were looked for before");
    }

    fn close(&mut self, line: &mut impl Line, own: u32) -> bool {
        self.book.set_state(own, State::Closing);
        self.request(line, Asked::Delete { own }, Request::Delete { spi: own }) == Answer::Done
    }

    /// Sends a request under the next own ID; it is outstanding then, taken or not.
    fn request(&mut self, line: &mut impl Line, asked: Asked, request: Request) -> Answer {
        let id = self.next_id.peek().expect("an ID was looked for before");
        self.next_id.advance();
        let octets = self.message(id, Body::Request(request)).encode();
        let taken = line.send(self.side.other(), &octets);
        self.outstanding = Some(Outstanding { id, asked, octets });
        Answer::sent(taken)
    }

    fn message(&self, id: u32, body: Body) -> Message {
        Message { ike: self.ike, sender: self.side, id, body }
    }

    // Deliveries.

    pub fn deliver(&mut self, line: &mut impl Line, nonce: &[u8]) -> Delivery {
        let Some(nonce) = Nonce::new(nonce) else {
            return Delivery::only(Answer::WrongReplyNonce);
        };
        let Some(octets) = line.receive(self.side) else {
            return Delivery::only(Answer::NothingCame);
        };
        let message = match Message::decode(&octets) {
            Ok(message) => message,
            Err(check) => return Delivery::only(Answer::Unreadable(check)),
        };
        if message.ike != self.ike || message.sender != self.side.other() {
            return Delivery::only(Answer::NotFromThePeer);
        }
        match message.body {
            Body::Request(request) => self.take_request(line, message.id, request, nonce),
            Body::Response(response) => self.take_response(line, message.id, response),
        }
    }

    fn take_request(&mut self, line: &mut impl Line, id: u32, request: Request, nonce: Nonce) -> Delivery {
        if self.expected.peek() == Some(id) {
            return self.process_request(line, id, request, nonce);
        }
        match &self.stored_reply {
            Some(reply) if self.expected.is_just_past(id) => {
                Delivery::only(Answer::sent_again(line.send(self.side.other(), reply)))
            }
            _ => Delivery::only(Answer::IdDoesNotCount),
        }
    }

    fn process_request(&mut self, line: &mut impl Line, id: u32, request: Request, nonce: Nonce) -> Delivery {
        self.confirm_fresh_rows();
        let (response, rekeyed, collision) = match &request {
            Request::Create { spi, nonce: offered } => {
                (self.answer_create(*spi, offered, nonce, Spis::NONE), None, false)
            }
            Request::Rekey { old, spi, nonce: offered } => self.answer_rekey(*old, *spi, offered, nonce),
            Request::Delete { spi } => (self.answer_delete(*spi), None, false),
            Request::Empty => (Response::Empty, None, false),
        };
        let octets = self.message(id, Body::Response(response.clone())).encode();
        let taken = line.send(self.side.other(), &octets);
        self.stored_reply = Some(octets);
        self.expected.advance();
        let deed = Deed::Answered { request, response, rekeyed, collision };
        Delivery { answer: Answer::sent(taken), deed: Some(deed) }
    }

    /// A new request shows that the peer has the responses to those before.
    fn confirm_fresh_rows(&mut self) {
        let fresh: Vec<u32> =
            self.book.rows().filter(|row| row.state == State::Fresh).map(|row| row.spis.own).collect();
        for own in fresh {
            self.book.set_state(own, State::Standing);
        }
    }

    fn answer_create(&mut self, offered_spi: u32, offered: &Nonce, nonce: Nonce, parent: Spis) -> Response {
        if !self.is_acceptable_peer_spi(offered_spi) {
            return Response::Failed(Failure::NoProposalChosen);
        }
        let Some(own) = self.next_spi.peek().filter(|_| !self.book.is_full()) else {
            return Response::Failed(Failure::NoAdditionalSas);
        };
        self.put(Row {
            spis: Spis { own, peer: offered_spi },
            state: State::Fresh,
            began: Began::Peer,
            parent,
            initiator_nonce: Some(offered.clone()),
            kept_responder_nonce: Some(nonce.clone()),
        });
        Response::New { spi: own, nonce }
    }

    fn is_acceptable_peer_spi(&self, spi: u32) -> bool {
        spi >= FIRST_SPI && self.book.find(spi).is_none()
    }

    /// The response, the SA that was rekeyed if it was, and whether that collides with this end's own rekey.
    fn answer_rekey(
        &mut self,
        old_of_peer: u32,
        offered_spi: u32,
        offered: &Nonce,
        nonce: Nonce,
    ) -> (Response, Option<Spis>, bool) {
        let Some(old) = self.row_by_peer_spi(old_of_peer) else {
            return (Response::Failed(Failure::ChildSaNotFound { spi: old_of_peer }), None, false);
        };
        let spis = old.spis;
        if matches!(old.state, State::Closing | State::Superseded) {
            return (Response::Failed(Failure::TemporaryFailure), None, false);
        }
        let response = self.answer_create(offered_spi, offered, nonce, spis);
        let Response::New { nonce, .. } = &response else {
            return (response, None, false);
        };
        self.book.set_state(spis.own, State::Superseded);
        let exchange = Exchange { initiator: offered.clone(), responder: nonce.clone() };
        let collision = self.record_collision(spis.own, exchange);
        (response, Some(spis), collision)
    }

    fn row_by_peer_spi(&self, peer: u32) -> Option<&Row> {
        self.book.find(peer).and_then(|own| self.book.read(own).ok())
    }

    fn record_collision(&mut self, rekeyed: u32, exchange: Exchange) -> bool {
        match &mut self.outstanding {
            Some(Outstanding { asked: Asked::Rekey { old, collision, .. }, .. }) if *old == rekeyed => {
                *collision = Some(exchange);
                true
            }
            _ => false,
        }
    }

    fn answer_delete(&mut self, spi: u32) -> Response {
        match self.row_by_peer_spi(spi) {
            Some(row) if row.state != State::Closing => {
                let own = row.spis.own;
                self.drop_row(own);
                Response::Delete { spi: own }
            }
            _ => Response::Empty,
        }
    }

    fn drop_row(&mut self, own: u32) {
        // A row that the peer's Delete took before is not there any more.
        let _ = self.book.remove(own);
    }

    fn take_response(&mut self, line: &mut impl Line, id: u32, response: Response) -> Delivery {
        match self.outstanding.take_if(|outstanding| outstanding.id == id) {
            Some(Outstanding { asked, .. }) => self.settle(line, asked, response),
            None => Delivery::only(Answer::IdDoesNotCount),
        }
    }

    fn settle(&mut self, line: &mut impl Line, asked: Asked, response: Response) -> Delivery {
        let mut own_lost = None;
        let mut to_close = None;
        let old_was_there = matches!(&asked, Asked::Rekey { old, .. } if self.book.read(*old).is_ok());
        match &asked {
            Asked::Create { own } => {
                if !self.stand_up(*own, &response) {
                    self.drop_row(*own);
                }
            }
            Asked::Rekey { own, old, collision } => {
                if self.stand_up(*own, &response) {
                    own_lost = collision.as_ref().map(|of_peer| self.own_exchange_loses(*own, of_peer));
                    let surplus = if own_lost == Some(true) { *own } else { *old };
                    to_close = self.book.read(surplus).ok().map(|row| row.spis.own);
                } else {
                    self.drop_row(*own);
                    if matches!(response, Response::Failed(Failure::ChildSaNotFound { .. })) {
                        self.drop_row(*old);
                    }
                }
            }
            Asked::Delete { own } => self.drop_row(*own),
            Asked::Check => {}
        }
        let taken = to_close.is_none_or(|own| self.close(line, own));
        let deed = Deed::Settled { asked, response, own_lost, old_was_there };
        Delivery { answer: Answer::sent(taken), deed: Some(deed) }
    }

    /// Makes an Opening row Standing, where the response has a new SA that is acceptable.
    fn stand_up(&mut self, own: u32, response: &Response) -> bool {
        let Response::New { spi, nonce } = response else {
            return false;
        };
        if !self.is_acceptable_peer_spi(*spi) {
            return false;
        }
        let Ok(opening) = self.book.read(own) else {
            return false;
        };
        let standing = Row {
            spis: Spis { own, peer: *spi },
            state: State::Standing,
            kept_responder_nonce: Some(nonce.clone()),
            ..opening.clone()
        };
        self.book.write(standing).is_ok()
    }

    fn own_exchange_loses(&self, own: u32, of_peer: &Exchange) -> bool {
        let Some(of_own) = self.exchange_of(own) else {
            return false;
        };
        let loser = match self.side {
            Side::A => loser(&of_own, of_peer),
            Side::B => loser(of_peer, &of_own),
        };
        loser == self.side
    }

    fn exchange_of(&self, own: u32) -> Option<Exchange> {
        let row = self.book.read(own).ok()?;
        Some(Exchange { initiator: row.initiator_nonce.clone()?, responder: row.responder_nonce().cloned()? })
    }
}

impl fmt::Display for End {
    fn fmt(&self, f: &mut fmt::Formatter<'_>) -> fmt::Result {
        write!(f, "{} next {} expected {} spi {} ", self.side, self.next_id, self.expected, self.next_spi)?;
        match &self.outstanding {
            Some(outstanding) => write!(f, "{outstanding}"),
            None => f.write_str("quiet"),
        }
    }
}
