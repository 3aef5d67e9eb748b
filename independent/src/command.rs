//! The commands of a script, read from the words of a line.

use crate::book::{Began, BookKind, Row, Spis, State};
use crate::channel::{BottomKind, LONGEST_OF_ALL, MOST_MARKERS, Plan};
use crate::message::{Body, Failure, IkeSpis, Message, Request, Response};
use crate::nonce::{Exchange, Nonce};
use crate::pair::{Call, Making};
use crate::side::Side;
use crate::words::{Words, Wrong};

#[derive(Clone, PartialEq, Eq, Debug)]
pub enum Command {
    Decode(Vec<u8>),
    Encode(Message),
    Lower(Nonce, Nonce),
    Loser { of_a: Exchange, of_b: Exchange },
    Help,
    Book(BookKind, Side),
    Put(Side, Row),
    Read(Side, u32),
    Write(Side, Row),
    Drop(Side, u32),
    Find(Side, u32),
    Next(Side, u32),
    Rows(Side),
    Audit,
    Channel(Plan),
    Mark,
    Unmark,
    Send(Side, Vec<u8>),
    Receive { at: Side, buffer: usize },
    Make(Making),
    Call(Side, Call),
    Round { times: u32, nonce: Vec<u8> },
    Books,
    Ends,
    Ladder,
}

pub fn parse(words: &[&str]) -> Result<Command, Wrong> {
    let mut words = Words::new(words);
    let command = parse_command(&mut words)?;
    words.end()?;
    Ok(command)
}

fn parse_command(words: &mut Words) -> Result<Command, Wrong> {
    Ok(match words.next("a command")? {
        "decode" => Command::Decode(words.octets_or_none("the octets of a message")?),
        "encode" => Command::Encode(message(words)?),
        "lower" => Command::Lower(words.nonce("a nonce")?, words.nonce("a second nonce")?),
        "loser" => Command::Loser { of_a: exchange(words)?, of_b: exchange(words)? },
        "help" => Command::Help,
        "book" => Command::Book(book_kind(words)?, words.side()?),
        "put" => Command::Put(words.side()?, row(words)?),
        "read" => Command::Read(words.side()?, words.number("an own SPI")?),
        "write" => Command::Write(words.side()?, row(words)?),
        "drop" => Command::Drop(words.side()?, words.number("an own SPI")?),
        "find" => Command::Find(words.side()?, words.number("a peer SPI")?),
        "next" => Command::Next(words.side()?, words.number("an own SPI")?),
        "rows" => Command::Rows(words.side()?),
        "audit" => Command::Audit,
        "channel" => Command::Channel(channel(words)?),
        "mark" => Command::Mark,
        "unmark" => Command::Unmark,
        "send" => Command::Send(words.side()?, words.octets_or_none("the octets of a datagram")?),
        "receive" => Command::Receive { at: words.side()?, buffer: buffer(words)? },
        "make" => Command::Make(making(words)?),
        "A" => Command::Call(Side::A, call(words)?),
        "B" => Command::Call(Side::B, call(words)?),
        "round" => Command::Round { times: words.number_up_to("how many rounds", 1, 100)?, nonce: words.any_nonce()? },
        "books" => Command::Books,
        "ends" => Command::Ends,
        "ladder" => Command::Ladder,
        other => return Err(format!("there is no command `{other}`")),
    })
}

fn message(words: &mut Words) -> Result<Message, Wrong> {
    words.keyword("ike")?;
    let ike = IkeSpis { a: words.ike_spi()?, b: words.ike_spi()? };
    let sender = words.side()?;
    let is_response = words.choice(&[("request", false), ("response", true)])?;
    let id = words.number("a Message ID")?;
    let body = if is_response { Body::Response(response(words)?) } else { Body::Request(request(words)?) };
    Ok(Message { ike, sender, id, body })
}

fn request(words: &mut Words) -> Result<Request, Wrong> {
    Ok(match words.next("what is requested")? {
        "create" => {
            let (spi, nonce) = offer(words)?;
            Request::Create { spi, nonce }
        }
        "rekey" => {
            words.keyword("old")?;
            let old = words.number("an SPI")?;
            let (spi, nonce) = offer(words)?;
            Request::Rekey { old, spi, nonce }
        }
        "delete" => Request::Delete { spi: spi(words)? },
        "empty" => Request::Empty,
        other => return Err(format!("there is no request `{other}`")),
    })
}

fn response(words: &mut Words) -> Result<Response, Wrong> {
    Ok(match words.next("what is responded")? {
        "new" => {
            let (spi, nonce) = offer(words)?;
            Response::New { spi, nonce }
        }
        "notify" => Response::Failed(failure(words)?),
        "delete" => Response::Delete { spi: spi(words)? },
        "empty" => Response::Empty,
        other => return Err(format!("there is no response `{other}`")),
    })
}

fn failure(words: &mut Words) -> Result<Failure, Wrong> {
    Ok(match words.next("14, 35, 43 or 44")? {
        "14" => Failure::NoProposalChosen,
        "35" => Failure::NoAdditionalSas,
        "43" => Failure::TemporaryFailure,
        "44" => Failure::ChildSaNotFound { spi: spi(words)? },
        other => return Err(format!("there is no notify `{other}`")),
    })
}

fn offer(words: &mut Words) -> Result<(u32, Nonce), Wrong> {
    let spi = spi(words)?;
    words.keyword("nonce")?;
    Ok((spi, words.nonce("a nonce")?))
}

fn spi(words: &mut Words) -> Result<u32, Wrong> {
    words.keyword("spi")?;
    words.number("an SPI")
}

fn exchange(words: &mut Words) -> Result<Exchange, Wrong> {
    Ok(Exchange { initiator: words.nonce("the initiator's nonce")?, responder: words.nonce("the responder's nonce")? })
}

fn book_kind(words: &mut Words) -> Result<BookKind, Wrong> {
    words.choice(&[("ordered", BookKind::Ordered), ("table", BookKind::Table)])
}

fn row(words: &mut Words) -> Result<Row, Wrong> {
    words.keyword("row")?;
    let spis = spis(words)?;
    let state = words.next("a state")?;
    let state = State::from_number(state).ok_or_else(|| format!("a state is 1 to 5, not `{state}`"))?;
    let began = words.choice(&[("0", Began::Here), ("1", Began::Peer)])?;
    words.keyword("parent")?;
    let parent = self::spis(words)?;
    words.keyword("ni")?;
    let initiator_nonce = words.nonce_or_none("the initiator's nonce")?;
    words.keyword("nr")?;
    let kept_responder_nonce = words.nonce_or_none("the responder's nonce")?;
    Ok(Row { spis, state, began, parent, initiator_nonce, kept_responder_nonce })
}

fn spis(words: &mut Words) -> Result<Spis, Wrong> {
    Ok(Spis { own: words.number("an own SPI")?, peer: words.number("a peer SPI")? })
}

fn channel(words: &mut Words) -> Result<Plan, Wrong> {
    let kind = words.next("queue, stack or trace")?;
    if !["queue", "stack", "trace"].contains(&kind) {
        return Err(format!("there is no channel `{kind}`"));
    }
    let longest = words.number("the most octets of a datagram")?;
    let bottom = match kind {
        "queue" => BottomKind::Queue,
        "stack" => BottomKind::Stack,
        _ => BottomKind::Trace { fates: fates(words.next("the fates of what is sent")?) },
    };
    let mut markers = 0;
    while markers < MOST_MARKERS && words.skip("marker") {
        markers += 1;
    }
    Ok(Plan { bottom, longest, markers })
}

fn fates(word: &str) -> Vec<char> {
    if word == "-" { Vec::new() } else { word.chars().collect() }
}

fn buffer(words: &mut Words) -> Result<usize, Wrong> {
    if words.is_at_end() {
        return Ok(LONGEST_OF_ALL);
    }
    words.number_up_to("the octets of a buffer", 0, LONGEST_OF_ALL as u32).map(|octets| octets as usize)
}

fn making(words: &mut Words) -> Result<Making, Wrong> {
    let channel = channel(words)?;
    words.keyword("ids")?;
    let first_ids = [words.number("the first ID of A")?, words.number("the first ID of B")?];
    words.keyword("spis")?;
    let first_spis = [words.number("the first SPI of A")?, words.number("the first SPI of B")?];
    words.keyword("ike")?;
    let ike = IkeSpis { a: words.ike_spi()?, b: words.ike_spi()? };
    words.keyword("books")?;
    let books = [book_kind(words)?, book_kind(words)?];
    Ok(Making { channel, first_ids, first_spis, ike, books })
}

fn call(words: &mut Words) -> Result<Call, Wrong> {
    Ok(match words.next("a call")? {
        "create" => Call::Create { nonce: words.any_nonce()? },
        "rekey" => Call::Rekey { own: words.number("an own SPI")?, nonce: words.any_nonce()? },
        "delete" => Call::Delete { own: words.number("an own SPI")? },
        "check" => Call::Check,
        "resend" => Call::Resend,
        "deliver" => Call::Deliver { nonce: words.any_nonce()? },
        other => return Err(format!("an end has no call `{other}`")),
    })
}
