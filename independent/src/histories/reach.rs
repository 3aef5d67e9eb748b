//! What the histories of a run have reached.

use std::collections::BTreeMap;
use std::fmt::Write;

use crate::book::{Audit, BookKind, State, audit};
use crate::channel::{BottomKind, Channel, Fate};
use crate::command::Command;
use crate::end::{Answer, Asked, Deed};
use crate::law::is_tied;
use crate::message::{Failure, Message, Request, Response};
use crate::nonce::{Exchange, loser};
use crate::pair::{Call, Pair};
use crate::script::{Happened, Observer};
use crate::side::Side;

const ANSWERS: [&str; 17] = [
    "answer 0",
    "answer 1",
    "answer 2",
    "answer 3",
    "answer 10 (make)",
    "answer 11 (make)",
    "answer 20",
    "answer 21",
    "answer 22",
    "answer 23",
    "answer 24",
    "answer 25",
    "answer 26",
    "answer 27",
    "answer 28",
    "answer 30",
    "answer 31",
];
const ANSWER_34: &str = "answer 34";
const CHANNEL_11: &str = "channel refused 11";

/// By call, each number that it can answer.
const CREATE: [(u8, &str); 7] = [
    (0, "create = 0"),
    (1, "create = 1"),
    (20, "create = 20"),
    (21, "create = 21"),
    (22, "create = 22"),
    (23, "create = 23"),
    (27, "create = 27"),
];
const REKEY: [(u8, &str); 10] = [
    (0, "rekey = 0"),
    (1, "rekey = 1"),
    (20, "rekey = 20"),
    (21, "rekey = 21"),
    (22, "rekey = 22"),
    (23, "rekey = 23"),
    (24, "rekey = 24"),
    (25, "rekey = 25"),
    (26, "rekey = 26"),
    (27, "rekey = 27"),
];
const DELETE: [(u8, &str); 7] = [
    (0, "delete = 0"),
    (1, "delete = 1"),
    (21, "delete = 21"),
    (22, "delete = 22"),
    (24, "delete = 24"),
    (25, "delete = 25"),
    (26, "delete = 26"),
];
const CHECK: [(u8, &str); 4] = [(0, "check = 0"), (1, "check = 1"), (21, "check = 21"), (22, "check = 22")];
const RESEND: [(u8, &str); 3] = [(0, "resend = 0"), (1, "resend = 1"), (28, "resend = 28")];
const DELIVER: [(u8, &str); 7] = [
    (0, "deliver = 0"),
    (1, "deliver = 1"),
    (2, "deliver = 2"),
    (3, "deliver = 3"),
    (30, "deliver = 30"),
    (31, "deliver = 31"),
    (34, "deliver = 34"),
];

const NOT_TAKEN: [&str; 2] =
    ["response of a processed request not taken", "Delete of the SA that a rekey leaves over not taken"];

const DECODE_REFUSALS: [(u8, &str); 5] = [
    (40, "decode refused 40"),
    (41, "decode refused 41"),
    (42, "decode refused 42"),
    (43, "decode refused 43"),
    (44, "decode refused 44"),
];

const BOOK_REFUSALS: [(u8, &str); 4] =
    [(60, "book refused 60"), (61, "book refused 61"), (62, "book refused 62"), (63, "book refused 63")];

const READ_MESSAGES: [&str; 11] = [
    "decoded request create",
    "decoded request rekey",
    "decoded request delete",
    "decoded request empty",
    "decoded response new",
    "decoded response notify 14",
    "decoded response notify 35",
    "decoded response notify 43",
    "decoded response notify 44",
    "decoded response delete",
    "decoded response empty",
];

const CREATE_ANSWERS: [&str; 2] = ["create answered new", "create answered notify 35"];
const REKEY_ANSWERS: [&str; 4] =
    ["rekey answered new", "rekey answered notify 35", "rekey answered notify 43", "rekey answered notify 44"];
const OTHER_ANSWERS: [&str; 3] = ["delete answered delete", "delete answered empty", "empty answered empty"];

const SETTLED: [&str; 9] = [
    "create settled by new",
    "create settled by notify 35",
    "rekey settled by new",
    "rekey settled by notify 35",
    "rekey settled by notify 43",
    "rekey settled by notify 44",
    "delete settled by delete",
    "delete settled by empty",
    "check settled by empty",
];

const COLLISIONS: [&str; 7] = [
    "collision recorded",
    "collision recorded at both ends",
    "collision recorded at one end only",
    "loser A's SA",
    "loser B's SA",
    "loser where both exchanges hold the lowest nonce",
    "rekey settled while its old row is gone",
];

const STATES: [&str; 5] = ["row Opening", "row Fresh", "row Standing", "row Superseded", "row Closing"];

const FATES: [&str; 4] = ["datagram that just comes", "datagram lost", "datagram twice", "datagram that jumps"];
const FATES_OF_CHANNEL: [&str; 1] = ["channel: not taken"];

const MOMENTS: [&str; 10] = [
    "quiet moment with rows, all with their mirror",
    "quiet moment without rows",
    "resend of a request",
    "repeated request answered from the stored reply",
    "repeated request with the last ID of all",
    "IDs spent",
    "SPIs spent",
    "book full",
    "message not taken",
    "ends at rest again after an ask",
];

const BOTTOMS_OF_ENDS: [[&str; 4]; 3] = [
    [
        "ends over a queue",
        "ends over a queue, 1 marker",
        "ends over a queue, 2 markers",
        "ends over a queue, 3 markers",
    ],
    [
        "ends over a stack",
        "ends over a stack, 1 marker",
        "ends over a stack, 2 markers",
        "ends over a stack, 3 markers",
    ],
    [
        "ends over a trace",
        "ends over a trace, 1 marker",
        "ends over a trace, 2 markers",
        "ends over a trace, 3 markers",
    ],
];
const BOTTOMS_OF_CHANNELS: [[&str; 4]; 3] = [
    ["channel queue", "channel queue, 1 marker", "channel queue, 2 markers", "channel queue, 3 markers"],
    ["channel stack", "channel stack, 1 marker", "channel stack, 2 markers", "channel stack, 3 markers"],
    ["channel trace", "channel trace, 1 marker", "channel trace, 2 markers", "channel trace, 3 markers"],
];

const BOOKS_OF_ENDS: [[&str; 2]; 2] = [
    ["end A with an ordered book", "end A with a table book"],
    ["end B with an ordered book", "end B with a table book"],
];
const BOOKS: [[&str; 2]; 2] = [["book ordered A", "book table A"], ["book ordered B", "book table B"]];

const COMMANDS: [&str; 22] = [
    "decode",
    "encode",
    "lower",
    "loser",
    "put",
    "read",
    "write",
    "drop",
    "find",
    "next",
    "rows",
    "audit",
    "mark",
    "unmark",
    "send",
    "receive",
    "round",
    "books",
    "ends",
    "ladder",
    "wrong line",
    "audit: all have mirrors",
];
const AUDITS: [&str; 2] = ["audit: no mirror in B", "audit: no mirror in A"];

/// What no script can reach, and why. It is counted all the same where it could be.
const OUT_OF_REACH: [(&str, &str); 11] = [
    ("answer 12", "there would have to be no memory"),
    (
        "rekey settled while its old row is gone, and no collision lost",
        "only the winner's Delete takes a Superseded row",
    ),
    ("answer 13", "`make` gives each end a new book"),
    ("answer 33", "both ends have the same IKE SPIs, and nobody else sends over their channel"),
    ("delivery refused 40 to 44", "both ends send messages only, through the same markers"),
    ("notify 14 sent", "an end's SPIs are at least 256, and each is used once"),
    ("create settled by notify 14", "none is sent"),
    ("rekey settled by notify 14", "none is sent"),
    ("new SA that counts as notify 14", "an end's SPIs are at least 256, and each is used once"),
    (
        "rekey of a Superseded row answered",
        "the peer's rekey of that row is settled, and its row Closing, before it can ask again",
    ),
    (
        "rekey settled by notify 44 with its old row there",
        "the peer has no row of it only where both ends have dropped it",
    ),
];

/// How often each thing was met.
#[derive(Clone, Default, Debug)]
pub struct Reach {
    counts: BTreeMap<&'static str, u64>,
    pub histories: u64,
    pub lines: u64,
    pub messages: u64,
}

impl Reach {
    pub fn count(&mut self, name: &'static str) {
        *self.counts.entry(name).or_default() += 1;
    }

    pub fn add(&mut self, other: &Reach) {
        for (name, count) in &other.counts {
            *self.counts.entry(name).or_default() += count;
        }
        self.histories += other.histories;
        self.lines += other.lines;
        self.messages += other.messages;
    }

    fn of(&self, name: &str) -> u64 {
        self.counts.get(name).copied().unwrap_or(0)
    }

    /// What must be met and was not.
    pub fn missing(&self) -> Vec<&'static str> {
        required().into_iter().filter(|name| self.of(name) == 0).collect()
    }

    pub fn report(&self) -> String {
        let mut text =
            format!("{} histories, {} lines, {} messages sent by ends\n", self.histories, self.lines, self.messages);
        for name in required() {
            let _ = writeln!(text, "{:>12}  {name}", self.of(name));
        }
        text.push_str("out of a script's reach:\n");
        for (name, reason) in OUT_OF_REACH {
            let _ = writeln!(text, "{:>12}  {name}: {reason}", self.of(name));
        }
        text
    }

    /// Counts what a line turned out to be; the calls of ends are counted one by one as they are made.
    pub fn note(&mut self, happened: &Happened, answer: &str, channel: Option<&Channel>) {
        match happened {
            Happened::Nothing => {}
            Happened::Wrong => self.count("wrong line"),
            Happened::Answered(command, numbers) => self.note_command(command, numbers, answer, channel),
        }
    }

    fn note_command(&mut self, command: &Command, numbers: &[u8], answer: &str, channel: Option<&Channel>) {
        match command {
            Command::Decode(octets) => self.note_decode(octets, numbers),
            Command::Encode(_) => self.count("encode"),
            Command::Lower(..) => self.count("lower"),
            Command::Loser { .. } => self.count("loser"),
            Command::Help | Command::Call(..) => {}
            Command::Book(kind, side) => self.count(BOOKS[side.index()][kind_index(*kind)]),
            Command::Put(..) => self.note_book("put", numbers),
            Command::Read(..) => self.note_book("read", numbers),
            Command::Write(..) => self.note_book("write", numbers),
            Command::Drop(..) => self.note_book("drop", numbers),
            Command::Find(..) => self.count("find"),
            Command::Next(..) => self.count("next"),
            Command::Rows(_) => self.count("rows"),
            Command::Audit => self.note_audit(answer),
            Command::Channel(_) if numbers.is_empty() => self.note_channel(channel),
            Command::Channel(_) => self.count(CHANNEL_11),
            Command::Mark => {
                self.count("mark");
                self.note_channel(channel);
            }
            Command::Unmark => {
                self.count("unmark");
                self.note_channel(channel);
            }
            Command::Send(..) => {
                self.count("send");
                if answer == "not taken" {
                    self.count(FATES_OF_CHANNEL[0]);
                }
            }
            Command::Receive { .. } => self.count("receive"),
            Command::Make(making) => match numbers {
                [10] => self.count("answer 10 (make)"),
                [11] => self.count("answer 11 (make)"),
                _ => {
                    let markers = making.channel.markers;
                    self.count(BOTTOMS_OF_ENDS[bottom_index(&making.channel.bottom)][markers]);
                    for side in Side::BOTH {
                        self.count(BOOKS_OF_ENDS[side.index()][kind_index(making.books[side.index()])]);
                    }
                }
            },
            Command::Round { .. } => self.count("round"),
            Command::Books => self.count("books"),
            Command::Ends => self.count("ends"),
            Command::Ladder => self.count("ladder"),
        }
    }

    fn note_decode(&mut self, octets: &[u8], numbers: &[u8]) {
        self.count("decode");
        match numbers {
            [number] => self.count_number(&DECODE_REFUSALS, *number),
            _ => {
                if let Ok(message) = Message::decode(octets) {
                    self.count(READ_MESSAGES[message_index(&message)]);
                }
            }
        }
    }

    fn note_book(&mut self, name: &'static str, numbers: &[u8]) {
        self.count(name);
        if let [number] = numbers {
            self.count_number(&BOOK_REFUSALS, *number);
        }
    }

    fn note_audit(&mut self, answer: &str) {
        self.count("audit");
        if answer.starts_with("all") {
            self.count("audit: all have mirrors");
        } else if answer.starts_with("no mirror in B") {
            self.count(AUDITS[0]);
        } else {
            self.count(AUDITS[1]);
        }
    }

    fn note_channel(&mut self, channel: Option<&Channel>) {
        if let Some(channel) = channel {
            self.count(BOTTOMS_OF_CHANNELS[bottom_index(channel.kind())][channel.markers()]);
        }
    }

    fn count_number(&mut self, names: &[(u8, &'static str)], number: u8) {
        if let Some((_, name)) = names.iter().find(|(known, _)| *known == number) {
            self.count(name);
        }
    }

    fn note_deed(&mut self, pair: &Pair, side: Side, deed: &Deed) {
        match deed {
            Deed::Answered { request, response, rekeyed, collision } => {
                if matches!(response, Response::Failed(Failure::NoProposalChosen)) {
                    self.count("notify 14 sent");
                }
                if let Some(name) = answered_name(request, response) {
                    self.count(name);
                }
                if *collision && rekeyed.is_some() {
                    self.count(COLLISIONS[0]);
                }
                if is_refused_for_a_superseded_row(pair, side, request, response) {
                    self.count("rekey of a Superseded row answered");
                }
            }
            Deed::Settled { asked, response, own_lost, old_was_there } => {
                if let Some(name) = settled_name(asked, response) {
                    self.count(name);
                }
                if let Asked::Rekey { own, collision, .. } = asked {
                    self.note_rekey(response, *old_was_there, *own_lost);
                    if let Some(of_peer) = collision {
                        self.note_collision(pair, side, *own, of_peer, *own_lost);
                    }
                }
            }
        }
    }

    fn note_rekey(&mut self, response: &Response, old_was_there: bool, own_lost: Option<bool>) {
        match response {
            Response::New { .. } if !old_was_there => {
                self.count(COLLISIONS[6]);
                if own_lost != Some(true) {
                    self.count("rekey settled while its old row is gone, and no collision lost");
                }
            }
            Response::Failed(Failure::ChildSaNotFound { .. }) if old_was_there => {
                self.count("rekey settled by notify 44 with its old row there");
            }
            _ => {}
        }
    }

    fn note_collision(&mut self, pair: &Pair, side: Side, own: u32, of_peer: &Exchange, own_lost: Option<bool>) {
        if own_lost.is_none() {
            self.count(COLLISIONS[2]);
            return;
        }
        // Answered with a new SA, so the peer knows of both rekeys too.
        self.count(COLLISIONS[1]);
        let Some(of_own) = pair.end(side).book().read(own).ok().and_then(|row| {
            let (initiator, responder) = (row.initiator_nonce.clone()?, row.responder_nonce().cloned()?);
            Some(Exchange { initiator, responder })
        }) else {
            return;
        };
        let lost_by = match side {
            Side::A => loser(&of_own, of_peer),
            Side::B => loser(of_peer, &of_own),
        };
        self.count(COLLISIONS[3 + lost_by.index()]);
        if is_tied(&of_own, of_peer) {
            self.count(COLLISIONS[5]);
        }
    }

    fn note_moment(&mut self, pair: &Pair) {
        for side in Side::BOTH {
            let end = pair.end(side);
            for row in end.book().rows() {
                self.count(STATES[state_index(row.state)]);
            }
            if end.next_id().is_spent() {
                self.count("IDs spent");
            }
            if end.next_spi().is_spent() {
                self.count("SPIs spent");
            }
            if end.book().is_full() {
                self.count("book full");
            }
        }
        if pair.is_quiet() {
            let (a, b) = (pair.end(Side::A).book(), pair.end(Side::B).book());
            if a.is_empty() && b.is_empty() {
                self.count("quiet moment without rows");
            } else if audit(a, b) == Audit::AllHaveMirrors {
                self.count("quiet moment with rows, all with their mirror");
            }
        }
    }
}

impl Observer for Reach {
    fn called(&mut self, pair: &Pair, side: Side, call: &Call, number: u8) {
        self.messages += pair.last_fates().len() as u64;
        match ANSWERS.iter().find(|name| is_answer(name, number)) {
            Some(name) => self.count(name),
            None if number == Answer::IdDoesNotCount.number() => self.count(ANSWER_34),
            None if number == Answer::NotFromThePeer.number() => self.count("answer 33"),
            None => self.count("delivery refused 40 to 44"),
        }
        self.count_number(numbers_of(call), number);
        for fate in pair.last_fates() {
            self.count(match fate {
                None => "message not taken",
                Some(Fate::ComesOnce) => FATES[0],
                Some(Fate::Lost) => FATES[1],
                Some(Fate::Twice) => FATES[2],
                Some(Fate::Jumps) => FATES[3],
            });
        }
        match call {
            Call::Resend if number <= 1 => self.count("resend of a request"),
            Call::Deliver { .. } if matches!(number, 2 | 3) => {
                self.count("repeated request answered from the stored reply");
                if pair.end(side).expected().is_spent() {
                    self.count("repeated request with the last ID of all");
                }
            }
            _ => {}
        }
        if let Some(deed) = pair.last_deed() {
            self.note_deed(pair, side, deed);
            if number == Answer::NotTaken.number() {
                self.count(NOT_TAKEN[usize::from(matches!(deed, Deed::Settled { .. }))]);
            }
            if pair.is_quiet() && matches!(deed, Deed::Settled { .. }) {
                self.count("ends at rest again after an ask");
            }
        }
        self.note_moment(pair);
    }
}

/// Everything that a run has to meet.
fn required() -> Vec<&'static str> {
    let mut names = Vec::new();
    names.extend(ANSWERS);
    names.extend([ANSWER_34, CHANNEL_11]);
    for numbers in [&CREATE[..], &REKEY, &DELETE, &CHECK, &RESEND, &DELIVER] {
        names.extend(numbers.iter().map(|(_, name)| *name));
    }
    names.extend(NOT_TAKEN);
    names.extend(DECODE_REFUSALS.map(|(_, name)| name));
    names.extend(BOOK_REFUSALS.map(|(_, name)| name));
    names.extend(READ_MESSAGES);
    names.extend(CREATE_ANSWERS);
    names.extend(REKEY_ANSWERS);
    names.extend(OTHER_ANSWERS);
    names.extend(SETTLED);
    names.extend(COLLISIONS);
    names.extend(STATES);
    names.extend(FATES);
    names.extend(FATES_OF_CHANNEL);
    names.extend(MOMENTS);
    names.extend(BOTTOMS_OF_ENDS.into_iter().flatten());
    names.extend(BOTTOMS_OF_CHANNELS.into_iter().flatten());
    names.extend(BOOKS_OF_ENDS.into_iter().flatten());
    names.extend(BOOKS.into_iter().flatten());
    names.extend(COMMANDS);
    names.extend(AUDITS);
    names
}

fn numbers_of(call: &Call) -> &'static [(u8, &'static str)] {
    match call {
        Call::Create { .. } => &CREATE,
        Call::Rekey { .. } => &REKEY,
        Call::Delete { .. } => &DELETE,
        Call::Check => &CHECK,
        Call::Resend => &RESEND,
        Call::Deliver { .. } => &DELIVER,
    }
}

fn is_answer(name: &str, number: u8) -> bool {
    name.strip_prefix("answer ").and_then(|digits| digits.parse::<u8>().ok()) == Some(number)
}

fn kind_index(kind: BookKind) -> usize {
    match kind {
        BookKind::Ordered => 0,
        BookKind::Table => 1,
    }
}

fn bottom_index(bottom: &BottomKind) -> usize {
    match bottom {
        BottomKind::Queue => 0,
        BottomKind::Stack => 1,
        BottomKind::Trace { .. } => 2,
    }
}

fn state_index(state: State) -> usize {
    usize::from(state.number()) - 1
}

fn message_index(message: &Message) -> usize {
    use crate::message::Body;
    match &message.body {
        Body::Request(Request::Create { .. }) => 0,
        Body::Request(Request::Rekey { .. }) => 1,
        Body::Request(Request::Delete { .. }) => 2,
        Body::Request(Request::Empty) => 3,
        Body::Response(Response::New { .. }) => 4,
        Body::Response(Response::Failed(failure)) => match failure {
            Failure::NoProposalChosen => 5,
            Failure::NoAdditionalSas => 6,
            Failure::TemporaryFailure => 7,
            Failure::ChildSaNotFound { .. } => 8,
        },
        Body::Response(Response::Delete { .. }) => 9,
        Body::Response(Response::Empty) => 10,
    }
}

fn answered_name(request: &Request, response: &Response) -> Option<&'static str> {
    Some(match (request, response) {
        (Request::Create { .. }, Response::New { .. }) => CREATE_ANSWERS[0],
        (Request::Create { .. }, Response::Failed(Failure::NoAdditionalSas)) => CREATE_ANSWERS[1],
        (Request::Rekey { .. }, Response::New { .. }) => REKEY_ANSWERS[0],
        (Request::Rekey { .. }, Response::Failed(Failure::NoAdditionalSas)) => REKEY_ANSWERS[1],
        (Request::Rekey { .. }, Response::Failed(Failure::TemporaryFailure)) => REKEY_ANSWERS[2],
        (Request::Rekey { .. }, Response::Failed(Failure::ChildSaNotFound { .. })) => REKEY_ANSWERS[3],
        (Request::Delete { .. }, Response::Delete { .. }) => OTHER_ANSWERS[0],
        (Request::Delete { .. }, Response::Empty) => OTHER_ANSWERS[1],
        (Request::Empty, Response::Empty) => OTHER_ANSWERS[2],
        _ => return None,
    })
}

fn is_refused_for_a_superseded_row(pair: &Pair, side: Side, request: &Request, response: &Response) -> bool {
    let (Request::Rekey { old, .. }, Response::Failed(Failure::TemporaryFailure)) = (request, response) else {
        return false;
    };
    let book = pair.end(side).book();
    book.find(*old).and_then(|own| book.read(own).ok()).is_some_and(|row| row.state == State::Superseded)
}

fn settled_name(asked: &Asked, response: &Response) -> Option<&'static str> {
    Some(match (asked, response) {
        (Asked::Create { .. }, Response::New { .. }) => SETTLED[0],
        (Asked::Create { .. }, Response::Failed(Failure::NoAdditionalSas)) => SETTLED[1],
        (Asked::Create { .. }, Response::Failed(Failure::NoProposalChosen)) => "create settled by notify 14",
        (Asked::Rekey { .. }, Response::New { .. }) => SETTLED[2],
        (Asked::Rekey { .. }, Response::Failed(Failure::NoAdditionalSas)) => SETTLED[3],
        (Asked::Rekey { .. }, Response::Failed(Failure::TemporaryFailure)) => SETTLED[4],
        (Asked::Rekey { .. }, Response::Failed(Failure::ChildSaNotFound { .. })) => SETTLED[5],
        (Asked::Rekey { .. }, Response::Failed(Failure::NoProposalChosen)) => "rekey settled by notify 14",
        (Asked::Delete { .. }, Response::Delete { .. }) => SETTLED[6],
        (Asked::Delete { .. }, Response::Empty) => SETTLED[7],
        (Asked::Check, Response::Empty) => SETTLED[8],
        _ => return None,
    })
}
