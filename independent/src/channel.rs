//! Channels: three kinds of bottoms, and markers over them.

use std::collections::VecDeque;

use crate::side::Side;

/// How many datagrams wait for an end at the most.
pub const DEPTH: usize = 32;

/// No datagram is longer, so a buffer of this length is always enough.
pub const LONGEST_OF_ALL: usize = 256;
const SHORTEST_LONGEST: u32 = 32;

pub const MOST_MARKERS: usize = 3;
const MARK: [u8; 4] = [0; 4];

#[derive(Clone, PartialEq, Eq, Debug)]
pub enum BottomKind {
    Queue,
    Stack,
    Trace { fates: Vec<char> },
}

/// What a channel is to be made of.
#[derive(Clone, PartialEq, Eq, Debug)]
pub struct Plan {
    pub bottom: BottomKind,
    pub longest: u32,
    pub markers: usize,
}

/// What becomes of a datagram that was taken.
#[derive(Clone, Copy, PartialEq, Eq, Debug)]
pub enum Fate {
    ComesOnce,
    Lost,
    Twice,
    Jumps,
}

/// Making was refused: the longest is not one that a bottom may have.
#[derive(Clone, Copy, PartialEq, Eq, Debug)]
pub struct WrongLongest;

impl WrongLongest {
    pub const NUMBER: u8 = 11;
}

#[derive(Clone, Debug)]
pub struct Channel {
    kind: BottomKind,
    bottom_longest: usize,
    used_fates: usize,
    waiting: [VecDeque<Vec<u8>>; 2],
    markers: usize,
}

impl Channel {
    pub fn make(plan: Plan) -> Result<Channel, WrongLongest> {
        if !(SHORTEST_LONGEST..=LONGEST_OF_ALL as u32).contains(&plan.longest) {
            return Err(WrongLongest);
        }
        Ok(Channel {
            kind: plan.bottom,
            bottom_longest: plan.longest as usize,
            used_fates: 0,
            waiting: [VecDeque::new(), VecDeque::new()],
            markers: plan.markers,
        })
    }

    /// The most octets of a datagram over all markers.
    pub fn longest(&self) -> usize {
        self.bottom_longest.saturating_sub(MARK.len() * self.markers)
    }

    pub fn markers(&self) -> usize {
        self.markers
    }

    pub fn kind(&self) -> &BottomKind {
        &self.kind
    }

    /// One marker more over the channel, where it may have one.
    pub fn mark(&mut self) -> bool {
        let may = self.markers < MOST_MARKERS;
        if may {
            self.markers += 1;
        }
        may
    }

    /// Takes the highest marker off, where there is one.
    pub fn unmark(&mut self) -> bool {
        let may = self.markers > 0;
        if may {
            self.markers -= 1;
        }
        may
    }

    /// Sends through all markers. Nothing means that the datagram was not taken.
    pub fn send(&mut self, to: Side, datagram: &[u8]) -> Option<Fate> {
        if datagram.is_empty() || datagram.len() > self.longest() {
            return None;
        }
        let mut marked = vec![0; MARK.len() * self.markers];
        marked.extend(datagram);
        self.send_at_bottom(to, marked)
    }

    fn send_at_bottom(&mut self, to: Side, datagram: Vec<u8>) -> Option<Fate> {
        if self.waiting[to.index()].len() >= DEPTH {
            return None;
        }
        match self.kind {
            BottomKind::Queue => self.waiting[to.index()].push_back(datagram),
            BottomKind::Stack => self.waiting[to.index()].push_front(datagram),
            BottomKind::Trace { .. } => {
                let letter = self.next_letter();
                return Some(follow_fate(letter, &mut self.waiting[to.index()], datagram));
            }
        }
        Some(Fate::ComesOnce)
    }

    /// The letter for what is sent next; it is used up by this.
    fn next_letter(&mut self) -> char {
        let letter = match &self.kind {
            BottomKind::Trace { fates } => fates.get(self.used_fates).copied(),
            BottomKind::Queue | BottomKind::Stack => None,
        };
        self.used_fates += 1;
        letter.unwrap_or('p')
    }

    /// Receives through all markers, into a buffer of so many octets.
    pub fn receive(&mut self, at: Side, buffer: usize) -> Option<Vec<u8>> {
        if buffer < self.longest() {
            return None;
        }
        let mut datagram = self.waiting[at.index()].pop_front()?;
        for _ in 0..self.markers {
            datagram = take_mark_off(datagram)?;
        }
        Some(datagram)
    }
}

/// Files a datagram as the letter says; what waits is in the order in which it will come.
fn follow_fate(letter: char, waiting: &mut VecDeque<Vec<u8>>, datagram: Vec<u8>) -> Fate {
    match letter {
        'l' => Fate::Lost,
        '2' if waiting.len() + 2 <= DEPTH => {
            waiting.push_back(datagram.clone());
            waiting.push_back(datagram);
            Fate::Twice
        }
        'j' => {
            waiting.push_front(datagram);
            Fate::Jumps
        }
        _ => {
            waiting.push_back(datagram);
            Fate::ComesOnce
        }
    }
}

/// Nothing where the datagram is not marked or has nothing behind the mark.
fn take_mark_off(datagram: Vec<u8>) -> Option<Vec<u8>> {
    datagram.strip_prefix(&MARK).filter(|rest| !rest.is_empty()).map(<[u8]>::to_vec)
}

#[cfg(test)]
mod tests {
    use super::*;

    fn channel(bottom: BottomKind, longest: u32, markers: usize) -> Channel {
        Channel::make(Plan { bottom, longest, markers }).unwrap()
    }

    fn trace(fates: &str) -> BottomKind {
        BottomKind::Trace { fates: fates.chars().collect() }
    }

    fn all(channel: &mut Channel, at: Side) -> Vec<u8> {
        std::iter::from_fn(|| channel.receive(at, LONGEST_OF_ALL)).map(|datagram| datagram[0]).collect()
    }

    #[test]
    fn queue_stack_and_trace_have_their_orders() {
        for (kind, order) in [
            (BottomKind::Queue, vec![1, 2, 3, 4, 5]),
            (BottomKind::Stack, vec![5, 4, 3, 2, 1]),
            (trace("pl2j"), vec![4, 1, 3, 3, 5]),
        ] {
            let mut channel = channel(kind, 64, 0);
            for octet in 1..=5 {
                assert!(channel.send(Side::B, &[octet]).is_some());
            }
            assert_eq!(all(&mut channel, Side::A), []);
            assert_eq!(all(&mut channel, Side::B), order);
        }
    }

    #[test]
    fn what_is_not_taken_uses_no_fate_and_twice_needs_room() {
        let mut channel = channel(trace(&("p".repeat(31) + "2l")), 32, 0);
        assert_eq!(channel.send(Side::A, &[]), None);
        assert_eq!(channel.send(Side::A, &[7; 33]), None);
        for octet in 0..31 {
            assert_eq!(channel.send(Side::A, &[octet]), Some(Fate::ComesOnce));
        }
        assert_eq!(channel.send(Side::A, &[31]), Some(Fate::ComesOnce));
        assert_eq!(channel.send(Side::A, &[32]), None);
        assert_eq!(channel.send(Side::B, &[32]), Some(Fate::Lost));
        assert_eq!(all(&mut channel, Side::A).len(), 32);
    }

    #[test]
    fn markers_take_four_each_and_drop_what_is_unmarked() {
        let mut channel = channel(BottomKind::Queue, 32, 3);
        assert_eq!(channel.longest(), 20);
        assert_eq!(channel.send(Side::A, &[9; 21]), None);
        assert!(channel.send(Side::A, &[9; 20]).is_some());
        assert_eq!(channel.receive(Side::A, 19), None);
        assert_eq!(channel.receive(Side::A, 20), Some(vec![9; 20]));
        assert!(!channel.mark());
        assert!(channel.unmark());
        assert!(channel.send(Side::A, &[1]).is_some());
        assert!(channel.mark());
        assert_eq!(channel.receive(Side::A, 256), None);
        assert_eq!(all(&mut channel, Side::A), []);
    }

    #[test]
    fn a_longest_of_32_to_256_can_be_made() {
        for longest in [0, 31, 257, u32::MAX] {
            assert_eq!(
                Channel::make(Plan { bottom: BottomKind::Queue, longest, markers: 0 }).err(),
                Some(WrongLongest)
            );
        }
    }
}
