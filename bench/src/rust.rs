//! The same over the functions of the independent program.

use independent::book::{Began, Book, BookKind, Refusal, Row, Spis, State};
use independent::channel::{BottomKind, Channel, LONGEST_OF_ALL, Plan};
use independent::end::{Answer, Beginning, End, Line};
use independent::message::{Body, Failure, IkeSpis, Message, Request, Response};
use independent::nonce::{self, Exchange, Nonce};
use independent::side::Side;

use crate::rattle::NoncePair;

const IKE: IkeSpis = IkeSpis {
    a: [0x01, 0x02, 0x03, 0x04, 0x05, 0x06, 0x07, 0x08],
    b: [0x11, 0x12, 0x13, 0x14, 0x15, 0x16, 0x17, 0x18],
};

fn mixed(before: u64, number: u64) -> u64 {
    before.wrapping_mul(31).wrapping_add(number)
}

fn offered(spi: u32, nonce: &Nonce) -> u64 {
    let octets = nonce.octets();
    let last = octets.last().copied().unwrap_or(0);
    mixed(mixed(u64::from(spi), octets.len() as u64), u64::from(last))
}

fn body_number(body: &Body) -> u64 {
    match body {
        Body::Request(Request::Create { spi, nonce }) => mixed(1, offered(*spi, nonce)),
        Body::Request(Request::Rekey { old, spi, nonce }) => mixed(mixed(2, u64::from(*old)), offered(*spi, nonce)),
        Body::Request(Request::Delete { spi }) => mixed(3, u64::from(*spi)),
        Body::Request(Request::Empty) => 4,
        Body::Response(Response::New { spi, nonce }) => mixed(5, offered(*spi, nonce)),
        Body::Response(Response::Failed(Failure::ChildSaNotFound { spi })) => mixed(44, u64::from(*spi)),
        Body::Response(Response::Failed(_)) => 6,
        Body::Response(Response::Delete { spi }) => mixed(7, u64::from(*spi)),
        Body::Response(Response::Empty) => 8,
    }
}

#[inline(never)]
pub fn decode(octets: &[u8]) -> u64 {
    match Message::decode(octets) {
        Ok(message) => mixed(u64::from(message.id), body_number(&message.body)),
        Err(refusal) => u64::from(refusal.number()),
    }
}

fn body_of(kind: u32, nonce: Nonce) -> Body {
    match kind {
        1 => Body::Request(Request::Create { spi: 1000, nonce }),
        2 => Body::Request(Request::Rekey { old: 1000, spi: 1001, nonce }),
        3 => Body::Request(Request::Delete { spi: 1000 }),
        4 => Body::Request(Request::Empty),
        5 => Body::Response(Response::New { spi: 2000, nonce }),
        6 => Body::Response(Response::Failed(Failure::TemporaryFailure)),
        7 => Body::Response(Response::Failed(Failure::ChildSaNotFound { spi: 1000 })),
        8 => Body::Response(Response::Delete { spi: 2000 }),
        _ => Body::Response(Response::Empty),
    }
}

/// One message of each kind, as octets.
pub fn message(kind: u32, nonce: &[u8]) -> Vec<u8> {
    let nonce = Nonce::new(nonce).expect("a nonce");
    Message { ike: IKE, sender: Side::A, id: 7, body: body_of(kind, nonce) }.encode()
}

#[inline(never)]
pub fn encode(octets: &[u8], times: u32) -> u64 {
    let Ok(mut message) = Message::decode(octets) else {
        return 0;
    };
    let mut all = 0;
    for id in 0..times {
        message.id = id;
        let out = message.encode();
        let ends = mixed(out.len() as u64, u64::from(out.last().copied().unwrap_or(0)));
        all = mixed(all, mixed(ends, u64::from(out.get(23).copied().unwrap_or(0))));
    }
    all
}

fn exchange(pair: &NoncePair) -> Option<Exchange> {
    Some(Exchange { initiator: Nonce::new(&pair.initiator)?, responder: Nonce::new(&pair.responder)? })
}

#[inline(never)]
pub fn lower(pairs: &[NoncePair; 4], times: u32) -> u64 {
    let four = pairs.each_ref().map(exchange);
    let mut all = 0;
    for i in 0..times {
        let number = match (&four[(i % 4) as usize], &four[(i / 4 % 4) as usize]) {
            (Some(a), Some(b)) => nonce::lower(&a.initiator, &b.responder).octets().last().copied().unwrap_or(0),
            _ => 0,
        };
        all = mixed(all, u64::from(number));
    }
    all
}

#[inline(never)]
pub fn loser(pairs: &[NoncePair; 4], times: u32) -> u64 {
    let four = pairs.each_ref().map(exchange);
    let mut all = 0;
    for i in 0..times {
        let number = match (&four[(i % 4) as usize], &four[(i / 4 % 4) as usize]) {
            (Some(a), Some(b)) => nonce::loser(a, b).index() as u64,
            _ => 0,
        };
        all = mixed(all, number);
    }
    all
}

fn own_of(k: u32) -> u32 {
    1000 + k % 16 * 7 % 16
}

fn row_of(k: u32, nonce: &[u8]) -> Row {
    let kept = Nonce::new(nonce);
    Row {
        spis: Spis { own: own_of(k), peer: 2000 + k % 16 },
        state: State::Standing,
        began: Began::Here,
        parent: Spis::NONE,
        initiator_nonce: kept.clone(),
        kept_responder_nonce: kept,
    }
}

fn answered(answer: Result<(), Refusal>) -> u64 {
    match answer {
        Ok(()) => 0,
        Err(refusal) => u64::from(refusal.number()),
    }
}

fn kind(table: bool) -> BookKind {
    if table { BookKind::Table } else { BookKind::Ordered }
}

fn filled(book: &mut Book, rows: u32, nonce: &[u8]) -> u64 {
    let mut all = 0;
    for k in 0..rows {
        all = mixed(all, answered(book.put(row_of(k, nonce))));
    }
    all
}

#[inline(never)]
pub fn fill(table: bool, rows: u32, nonce: &[u8]) -> u64 {
    let mut book = Book::new(kind(table));
    let all = filled(&mut book, rows, nonce);
    mixed(all, book.len() as u64)
}

#[inline(never)]
pub fn put_and_drop(table: bool, rows: u32, nonce: &[u8], times: u32) -> u64 {
    let mut book = Book::new(kind(table));
    let all = filled(&mut book, rows, nonce);
    let row = row_of(rows, nonce);
    let mut done = 0;
    for _ in 0..times {
        done = mixed(done, answered(book.put(row.clone())));
        done = mixed(done, answered(book.remove(row.spis.own)));
    }
    mixed(all, mixed(done, book.len() as u64))
}

#[inline(never)]
pub fn find(table: bool, rows: u32, nonce: &[u8], times: u32) -> u64 {
    let mut book = Book::new(kind(table));
    let all = filled(&mut book, rows, nonce);
    let mut done = 0;
    for i in 0..times {
        done = mixed(done, u64::from(book.find(2000 + i % 16).unwrap_or(0)));
    }
    mixed(all, done)
}

#[inline(never)]
pub fn read(table: bool, rows: u32, nonce: &[u8], times: u32) -> u64 {
    let mut book = Book::new(kind(table));
    let all = filled(&mut book, rows, nonce);
    let mut done = 0;
    for i in 0..times {
        done = mixed(done, u64::from(book.read(own_of(i)).map_or(0, |row| row.spis.peer)));
    }
    mixed(all, done)
}

/// The channel alone, with no picture of what goes over it.
struct Plain(Channel);

impl Line for Plain {
    fn send(&mut self, to: Side, datagram: &[u8]) -> bool {
        self.0.send(to, datagram).is_some()
    }

    fn receive(&mut self, at: Side) -> Option<Vec<u8>> {
        self.0.receive(at, LONGEST_OF_ALL)
    }
}

enum Call<'n> {
    Create { nonce: &'n [u8] },
    Rekey { own: u32, nonce: &'n [u8] },
    Check,
    Deliver { nonce: &'n [u8] },
}

fn answer(end: &mut End, line: &mut Plain, call: &Call<'_>) -> Answer {
    match call {
        Call::Create { nonce } => end.create(line, nonce),
        Call::Rekey { own, nonce } => end.rekey(line, *own, nonce),
        Call::Check => end.check(line),
        Call::Deliver { nonce } => end.deliver(line, nonce).answer,
    }
}

fn end(side: Side, first_spi: u32, table: bool) -> End {
    End::new(side, Beginning { ike: IKE, first_id: 0, first_id_of_peer: 0, first_spi, book: Book::new(kind(table)) })
}

fn play(table: bool, moves: &[(Side, Call<'_>)]) -> u64 {
    let plan = Plan { bottom: BottomKind::Queue, longest: 160, markers: 0 };
    let Ok(channel) = Channel::make(plan) else {
        return 1;
    };
    let mut line = Plain(channel);
    let (mut a, mut b) = (end(Side::A, 1000, table), end(Side::B, 2000, table));
    let mut answers = Vec::with_capacity(moves.len());
    for (side, call) in moves {
        let end = match side {
            Side::A => &mut a,
            Side::B => &mut b,
        };
        answers.push(answer(end, &mut line, call));
    }
    let mut all = 0;
    for answer in &answers {
        all = mixed(all, u64::from(answer.number()));
    }
    let left = mixed(a.book().len() as u64, b.book().len() as u64);
    mixed(mixed(all, left), u64::from(a.is_quiet() && b.is_quiet()))
}

#[inline(never)]
pub fn made(table: bool) -> u64 {
    play(table, &[])
}

#[inline(never)]
pub fn rekey(table: bool, low: &[u8], high: &[u8]) -> u64 {
    let deliver = |side| (side, Call::Deliver { nonce: high });
    let moves = [
        (Side::A, Call::Create { nonce: low }),
        deliver(Side::B),
        deliver(Side::A),
        (Side::A, Call::Rekey { own: 1000, nonce: low }),
        deliver(Side::B),
        deliver(Side::A),
        deliver(Side::B),
        deliver(Side::A),
    ];
    play(table, &moves)
}

#[inline(never)]
pub fn collision(table: bool, low: &[u8], high: &[u8]) -> u64 {
    let deliver = |side| (side, Call::Deliver { nonce: high });
    let moves = [
        (Side::A, Call::Create { nonce: high }),
        deliver(Side::B),
        deliver(Side::A),
        (Side::A, Call::Check),
        deliver(Side::B),
        deliver(Side::A),
        (Side::A, Call::Rekey { own: 1000, nonce: high }),
        (Side::B, Call::Rekey { own: 2000, nonce: low }),
        deliver(Side::A),
        deliver(Side::B),
        deliver(Side::A),
        deliver(Side::B),
        deliver(Side::A),
        deliver(Side::B),
        deliver(Side::A),
        deliver(Side::B),
    ];
    play(table, &moves)
}
