//! Books: the rows of an end's Child SAs by their own SPI, and the audit of two books.

use std::collections::BTreeMap;
use std::fmt;

use crate::nonce::Nonce;

/// SPIs below this one are reserved.
pub const FIRST_SPI: u32 = 256;

pub const CAPACITY: usize = 16;

#[derive(Clone, Copy, PartialEq, Eq, Debug)]
pub enum State {
    /// Requested here, no answer yet.
    Opening,
    /// Made here as responder, not yet confirmed.
    Fresh,
    Standing,
    /// The peer's rekey of it was answered with a new SA.
    Superseded,
    /// This end's Delete of it is outstanding.
    Closing,
}

impl State {
    pub const ALL: [State; 5] = [State::Opening, State::Fresh, State::Standing, State::Superseded, State::Closing];

    pub fn number(self) -> u8 {
        self as u8 + 1
    }

    pub fn from_number(number: &str) -> Option<State> {
        State::ALL.into_iter().find(|state| state.number().to_string() == number)
    }
}

/// Who began the exchange that made the SA.
#[derive(Clone, Copy, PartialEq, Eq, Debug)]
pub enum Began {
    Here,
    Peer,
}

impl Began {
    pub fn number(self) -> u8 {
        self as u8
    }
}

/// The two SPIs of one SA as an end sees them.
#[derive(Clone, Copy, PartialEq, Eq, Debug)]
pub struct Spis {
    pub own: u32,
    pub peer: u32,
}

impl Spis {
    /// Stands for the parent of an SA that has none.
    pub const NONE: Spis = Spis { own: 0, peer: 0 };

    pub fn exchanged(self) -> Spis {
        Spis { own: self.peer, peer: self.own }
    }
}

#[derive(Clone, PartialEq, Eq, Debug)]
pub struct Row {
    pub spis: Spis,
    pub state: State,
    pub began: Began,
    pub parent: Spis,
    pub initiator_nonce: Option<Nonce>,
    /// What lies here in an Opening row does not count; see [`Row::responder_nonce`].
    pub kept_responder_nonce: Option<Nonce>,
}

impl Row {
    pub fn is_opening(&self) -> bool {
        self.state == State::Opening
    }

    /// The responder's nonce, which an Opening row has not yet.
    pub fn responder_nonce(&self) -> Option<&Nonce> {
        if self.is_opening() { None } else { self.kept_responder_nonce.as_ref() }
    }

    /// Whether both rows are of one SA, each as its end sees it; the states do not matter.
    pub fn mirrors(&self, other: &Row) -> bool {
        self.spis == other.spis.exchanged()
            && self.parent == other.parent.exchanged()
            && self.began != other.began
            && self.initiator_nonce == other.initiator_nonce
            && self.responder_nonce() == other.responder_nonce()
    }
}

impl fmt::Display for Row {
    fn fmt(&self, f: &mut fmt::Formatter<'_>) -> fmt::Result {
        let Row { spis, parent, .. } = self;
        write!(f, "row {} {} {} {} ", spis.own, spis.peer, self.state.number(), self.began.number())?;
        write!(f, "parent {} {} ni ", parent.own, parent.peer)?;
        write_nonce(f, self.initiator_nonce.as_ref())?;
        f.write_str(" nr ")?;
        write_nonce(f, self.responder_nonce())
    }
}

fn write_nonce(f: &mut fmt::Formatter<'_>, nonce: Option<&Nonce>) -> fmt::Result {
    match nonce {
        Some(nonce) => write!(f, "{nonce}"),
        None => f.write_str("-"),
    }
}

#[derive(Clone, Copy, PartialEq, Eq, Debug)]
pub enum BookKind {
    Ordered,
    Table,
}

impl fmt::Display for BookKind {
    fn fmt(&self, f: &mut fmt::Formatter<'_>) -> fmt::Result {
        f.write_str(match self {
            BookKind::Ordered => "ordered",
            BookKind::Table => "table",
        })
    }
}

#[derive(Clone, Copy, PartialEq, Eq, Debug)]
pub enum Refusal {
    Reserved,
    Present,
    Full,
    Absent,
}

impl Refusal {
    pub fn number(self) -> u8 {
        match self {
            Refusal::Reserved => 60,
            Refusal::Present => 61,
            Refusal::Full => 62,
            Refusal::Absent => 63,
        }
    }
}

/// A book of either kind: the kinds answer alike, so the kind is a name only.
#[derive(Clone, Debug)]
pub struct Book {
    kind: BookKind,
    rows: BTreeMap<u32, Row>,
}

impl Book {
    pub fn new(kind: BookKind) -> Book {
        Book { kind, rows: BTreeMap::new() }
    }

    pub fn kind(&self) -> BookKind {
        self.kind
    }

    pub fn len(&self) -> usize {
        self.rows.len()
    }

    pub fn is_empty(&self) -> bool {
        self.rows.is_empty()
    }

    pub fn is_full(&self) -> bool {
        self.len() >= CAPACITY
    }

    /// The rows by rising own SPI.
    pub fn rows(&self) -> impl Iterator<Item = &Row> {
        self.rows.values()
    }

    pub fn put(&mut self, row: Row) -> Result<(), Refusal> {
        let own = row.spis.own;
        if own < FIRST_SPI {
            Err(Refusal::Reserved)
        } else if self.rows.contains_key(&own) {
            Err(Refusal::Present)
        } else if self.is_full() {
            Err(Refusal::Full)
        } else {
            self.rows.insert(own, row);
            Ok(())
        }
    }

    pub fn read(&self, own: u32) -> Result<&Row, Refusal> {
        self.rows.get(&own).ok_or(Refusal::Absent)
    }

    pub fn write(&mut self, row: Row) -> Result<(), Refusal> {
        let place = self.rows.get_mut(&row.spis.own).ok_or(Refusal::Absent)?;
        *place = row;
        Ok(())
    }

    pub fn remove(&mut self, own: u32) -> Result<(), Refusal> {
        self.rows.remove(&own).map(drop).ok_or(Refusal::Absent)
    }

    /// The lowest own SPI of a row that has this peer SPI and is not Opening.
    pub fn find(&self, peer: u32) -> Option<u32> {
        self.rows().find(|row| row.spis.peer == peer && !row.is_opening()).map(|row| row.spis.own)
    }

    /// The lowest own SPI above this one.
    pub fn next(&self, own: u32) -> Option<u32> {
        self.rows.keys().copied().find(|&there| there > own)
    }

    pub fn set_state(&mut self, own: u32, state: State) {
        if let Some(row) = self.rows.get_mut(&own) {
            row.state = state;
        }
    }

    /// The first row by rising own SPI that has no mirror in the other book. An Opening row has none.
    fn first_without_mirror(&self, other: &Book) -> Option<&Row> {
        self.rows().find(|row| {
            let mirror = other.rows.get(&row.spis.peer);
            row.is_opening() || !mirror.is_some_and(|mirror| row.mirrors(mirror))
        })
    }
}

/// What an audit finds.
#[derive(PartialEq, Eq, Debug)]
pub enum Audit<'b> {
    AllHaveMirrors,
    NoMirrorInB(&'b Row),
    NoMirrorInA(&'b Row),
}

pub fn audit<'b>(a: &'b Book, b: &'b Book) -> Audit<'b> {
    if let Some(row) = a.first_without_mirror(b) {
        Audit::NoMirrorInB(row)
    } else if let Some(row) = b.first_without_mirror(a) {
        Audit::NoMirrorInA(row)
    } else {
        Audit::AllHaveMirrors
    }
}

impl fmt::Display for Audit<'_> {
    fn fmt(&self, f: &mut fmt::Formatter<'_>) -> fmt::Result {
        match self {
            Audit::AllHaveMirrors => f.write_str("all rows have their mirror"),
            Audit::NoMirrorInB(row) => write!(f, "no mirror in B: {row}"),
            Audit::NoMirrorInA(row) => write!(f, "no mirror in A: {row}"),
        }
    }
}

#[cfg(test)]
mod tests {
    use super::*;

    fn row(own: u32, peer: u32, state: State, began: Began) -> Row {
        Row {
            spis: Spis { own, peer },
            state,
            began,
            parent: Spis::NONE,
            initiator_nonce: Nonce::new(&[0x55; 16]),
            kept_responder_nonce: Nonce::new(&[0x77; 16]),
        }
    }

    #[test]
    fn the_first_refusal_that_applies_is_told() {
        let mut book = Book::new(BookKind::Table);
        for own in 256..272 {
            assert_eq!(book.put(row(own, 1, State::Standing, Began::Here)), Ok(()));
        }
        assert_eq!(book.put(row(255, 1, State::Standing, Began::Here)), Err(Refusal::Reserved));
        assert_eq!(book.put(row(256, 1, State::Standing, Began::Here)), Err(Refusal::Present));
        assert_eq!(book.put(row(999, 1, State::Standing, Began::Here)), Err(Refusal::Full));
        assert_eq!(book.remove(999), Err(Refusal::Absent));
    }

    #[test]
    fn find_passes_over_an_opening_row_and_next_goes_up() {
        let mut book = Book::new(BookKind::Ordered);
        book.put(row(300, 2000, State::Opening, Began::Here)).unwrap();
        book.put(row(301, 2000, State::Fresh, Began::Peer)).unwrap();
        assert_eq!(book.find(2000), Some(301));
        assert_eq!(book.next(0), Some(300));
        assert_eq!(book.next(301), None);
    }

    #[test]
    fn an_audit_tells_the_first_row_without_its_mirror() {
        let (mut a, mut b) = (Book::new(BookKind::Ordered), Book::new(BookKind::Table));
        assert_eq!(audit(&a, &b), Audit::AllHaveMirrors);
        a.put(row(1000, 2000, State::Standing, Began::Here)).unwrap();
        b.put(row(2000, 1000, State::Fresh, Began::Peer)).unwrap();
        assert_eq!(audit(&a, &b), Audit::AllHaveMirrors);
        b.write(row(2000, 1000, State::Fresh, Began::Here)).unwrap();
        assert!(audit(&a, &b).to_string().starts_with("no mirror in B: row 1000 2000 3 0 parent 0 0 ni 5555"));
        a.remove(1000).unwrap();
        assert!(audit(&a, &b).to_string().starts_with("no mirror in A: row 2000 1000 2 0 "));
    }
}
