//! Messages: what they say, their one encoding, and how they are written in a script.

use std::fmt;

use crate::hex;
use crate::nonce::Nonce;
use crate::side::Side;

/// The SPIs of the IKE SA.
#[derive(Clone, Copy, PartialEq, Eq, Debug)]
pub struct IkeSpis {
    pub a: [u8; 8],
    pub b: [u8; 8],
}

#[derive(Clone, PartialEq, Eq, Debug)]
pub struct Message {
    pub ike: IkeSpis,
    pub sender: Side,
    pub id: u32,
    pub body: Body,
}

#[derive(Clone, PartialEq, Eq, Debug)]
pub enum Body {
    Request(Request),
    Response(Response),
}

#[derive(Clone, PartialEq, Eq, Debug)]
pub enum Request {
    Create { spi: u32, nonce: Nonce },
    Rekey { old: u32, spi: u32, nonce: Nonce },
    Delete { spi: u32 },
    Empty,
}

#[derive(Clone, PartialEq, Eq, Debug)]
pub enum Response {
    New { spi: u32, nonce: Nonce },
    Failed(Failure),
    Delete { spi: u32 },
    Empty,
}

#[derive(Clone, Copy, PartialEq, Eq, Debug)]
pub enum Failure {
    NoProposalChosen,
    NoAdditionalSas,
    TemporaryFailure,
    ChildSaNotFound { spi: u32 },
}

impl Failure {
    pub fn number(self) -> u16 {
        match self {
            Failure::NoProposalChosen => 14,
            Failure::NoAdditionalSas => 35,
            Failure::TemporaryFailure => 43,
            Failure::ChildSaNotFound { .. } => 44,
        }
    }
}

/// The first check that octets fail, in the order of the checks.
#[derive(Clone, Copy, PartialEq, Eq, Debug)]
pub enum Unreadable {
    Length,
    Header,
    Chain,
    Payload,
    NonceLength,
}

impl Unreadable {
    pub fn number(self) -> u8 {
        match self {
            Unreadable::Length => 40,
            Unreadable::Header => 41,
            Unreadable::Chain => 42,
            Unreadable::Payload => 43,
            Unreadable::NonceLength => 44,
        }
    }
}

const HEADER: usize = 28;
pub const SHORTEST: usize = HEADER;
pub const LONGEST: usize = 160;

const VERSION: u8 = 0x20;
const CREATE_CHILD_SA: u8 = 36;
const INFORMATIONAL: u8 = 37;
const FROM_A: u8 = 0x08;
const IS_RESPONSE: u8 = 0x20;

/// The types of payloads; `NONE` stands behind the last one.
mod kind {
    pub const NONE: u8 = 0;
    pub const SA: u8 = 33;
    pub const NONCE: u8 = 40;
    pub const NOTIFY: u8 = 41;
    pub const DELETE: u8 = 42;
    pub const TS_I: u8 = 44;
    pub const TS_R: u8 = 45;
}

const PROPOSAL: [u8; 8] = [0x00, 0x00, 0x00, 0x20, 0x01, 0x03, 0x04, 0x02];
const TRANSFORMS: [u8; 20] = [
    0x03, 0x00, 0x00, 0x0c, 0x01, 0x00, 0x00, 0x14, 0x80, 0x0e, 0x00, 0x80, 0x00, 0x00, 0x00, 0x08, 0x05, 0x00, 0x00,
    0x00,
];
const ALL_OF_IPV4: [u8; 20] = [
    0x01, 0x00, 0x00, 0x00, 0x07, 0x00, 0x00, 0x10, 0x00, 0x00, 0xff, 0xff, 0x00, 0x00, 0x00, 0x00, 0xff, 0xff, 0xff,
    0xff,
];
const REKEY_SA: [u8; 4] = [0x03, 0x04, 0x40, 0x09];
const CHILD_SA_NOT_FOUND: [u8; 4] = [0x03, 0x04, 0x00, 0x2c];
const NO_PROPOSAL_CHOSEN: [u8; 4] = [0x00, 0x00, 0x00, 0x0e];
const NO_ADDITIONAL_SAS: [u8; 4] = [0x00, 0x00, 0x00, 0x23];
const TEMPORARY_FAILURE: [u8; 4] = [0x00, 0x00, 0x00, 0x2b];
const DELETE_ONE_ESP_SPI: [u8; 4] = [0x03, 0x04, 0x00, 0x01];

impl Message {
    pub fn encode(&self) -> Vec<u8> {
        let payloads = self.body.payloads();
        let mut octets = Vec::with_capacity(LONGEST);
        octets.extend(self.ike.a);
        octets.extend(self.ike.b);
        octets.push(payloads.first().map_or(kind::NONE, |first| first.0));
        octets.push(VERSION);
        octets.push(self.body.exchange_type());
        octets.push(self.flags());
        octets.extend(self.id.to_be_bytes());
        let length: usize = HEADER + payloads.iter().map(|(_, data)| 4 + data.len()).sum::<usize>();
        octets.extend((length as u32).to_be_bytes());
        for (place, (_, data)) in payloads.iter().enumerate() {
            octets.push(payloads.get(place + 1).map_or(kind::NONE, |next| next.0));
            octets.push(0);
            octets.extend((4 + data.len() as u16).to_be_bytes());
            octets.extend(data);
        }
        octets
    }

    fn flags(&self) -> u8 {
        let sender = match self.sender {
            Side::A => FROM_A,
            Side::B => 0,
        };
        match self.body {
            Body::Request(_) => sender,
            Body::Response(_) => sender | IS_RESPONSE,
        }
    }

    pub fn decode(octets: &[u8]) -> Result<Message, Unreadable> {
        check_length(octets)?;
        let (exchange, flags) = (octets[18], octets[19]);
        check_header(octets[17], exchange, flags)?;
        let is_response = flags & IS_RESPONSE != 0;
        let chain = chain_of(octets[16], &octets[HEADER..])?;
        let layout = Layout::of(exchange, is_response, &chain).ok_or(Unreadable::Chain)?;
        let data: Vec<&[u8]> = chain.iter().map(|&(_, data)| data).collect();
        Ok(Message {
            ike: IkeSpis { a: eight(&octets[0..8]), b: eight(&octets[8..16]) },
            sender: if flags & FROM_A != 0 { Side::A } else { Side::B },
            id: four(&octets[20..24]),
            body: layout.read(&data)?,
        })
    }
}

fn check_length(octets: &[u8]) -> Result<(), Unreadable> {
    if !(SHORTEST..=LONGEST).contains(&octets.len()) || four(&octets[24..28]) as usize != octets.len() {
        return Err(Unreadable::Length);
    }
    Ok(())
}

fn check_header(version: u8, exchange: u8, flags: u8) -> Result<(), Unreadable> {
    let known = version == VERSION
        && matches!(exchange, CREATE_CHILD_SA | INFORMATIONAL)
        && flags & !(FROM_A | IS_RESPONSE) == 0;
    if known { Ok(()) } else { Err(Unreadable::Header) }
}

/// The payloads with their types, where the octets are a chain of them and nothing is left over.
fn chain_of(first: u8, mut rest: &[u8]) -> Result<Vec<(u8, &[u8])>, Unreadable> {
    let mut chain = Vec::with_capacity(5);
    let mut announced = first;
    while announced != kind::NONE {
        let &[next, zero, high, low, ..] = rest else {
            return Err(Unreadable::Chain);
        };
        let length = usize::from(u16::from_be_bytes([high, low]));
        if zero != 0 || length < 4 || length > rest.len() {
            return Err(Unreadable::Chain);
        }
        chain.push((announced, &rest[4..length]));
        announced = next;
        rest = &rest[length..];
    }
    if rest.is_empty() { Ok(chain) } else { Err(Unreadable::Chain) }
}

/// The orders of payloads that messages have.
#[derive(Clone, Copy)]
enum Layout {
    Create,
    Rekey,
    New,
    Notify,
    Delete { is_response: bool },
    Empty { is_response: bool },
}

impl Layout {
    fn of(exchange: u8, is_response: bool, chain: &[(u8, &[u8])]) -> Option<Layout> {
        use kind::{DELETE, NONCE, NOTIFY, SA, TS_I, TS_R};
        let types: Vec<u8> = chain.iter().map(|&(kind, _)| kind).collect();
        match (exchange, is_response, types.as_slice()) {
            (CREATE_CHILD_SA, false, [SA, NONCE, TS_I, TS_R]) => Some(Layout::Create),
            (CREATE_CHILD_SA, false, [NOTIFY, SA, NONCE, TS_I, TS_R]) => Some(Layout::Rekey),
            (CREATE_CHILD_SA, true, [SA, NONCE, TS_I, TS_R]) => Some(Layout::New),
            (CREATE_CHILD_SA, true, [NOTIFY]) => Some(Layout::Notify),
            (INFORMATIONAL, is_response, [DELETE]) => Some(Layout::Delete { is_response }),
            (INFORMATIONAL, is_response, []) => Some(Layout::Empty { is_response }),
            _ => None,
        }
    }

    /// Reads the payloads in turn; the first that is wrong gives the refusal.
    fn read(self, data: &[&[u8]]) -> Result<Body, Unreadable> {
        Ok(match self {
            Layout::Create => {
                let (spi, nonce) = read_offer(data)?;
                Body::Request(Request::Create { spi, nonce })
            }
            Layout::Rekey => {
                let old = spi_behind(&REKEY_SA, data[0])?;
                let (spi, nonce) = read_offer(&data[1..])?;
                Body::Request(Request::Rekey { old, spi, nonce })
            }
            Layout::New => {
                let (spi, nonce) = read_offer(data)?;
                Body::Response(Response::New { spi, nonce })
            }
            Layout::Notify => Body::Response(Response::Failed(read_failure(data[0])?)),
            Layout::Delete { is_response } => {
                let spi = spi_behind(&DELETE_ONE_ESP_SPI, data[0])?;
                if is_response {
                    Body::Response(Response::Delete { spi })
                } else {
                    Body::Request(Request::Delete { spi })
                }
            }
            Layout::Empty { is_response: true } => Body::Response(Response::Empty),
            Layout::Empty { is_response: false } => Body::Request(Request::Empty),
        })
    }
}

/// SA, Nonce, TSi and TSr.
fn read_offer(data: &[&[u8]]) -> Result<(u32, Nonce), Unreadable> {
    let spi = read_sa(data[0])?;
    let nonce = Nonce::new(data[1]).ok_or(Unreadable::NonceLength)?;
    if data[2] != ALL_OF_IPV4 || data[3] != ALL_OF_IPV4 {
        return Err(Unreadable::Payload);
    }
    Ok((spi, nonce))
}

fn read_sa(data: &[u8]) -> Result<u32, Unreadable> {
    let spi_and_transforms = data.strip_prefix(&PROPOSAL).ok_or(Unreadable::Payload)?;
    let spi = spi_and_transforms.strip_suffix(&TRANSFORMS).ok_or(Unreadable::Payload)?;
    exactly_four(spi)
}

fn read_failure(data: &[u8]) -> Result<Failure, Unreadable> {
    if data == NO_PROPOSAL_CHOSEN {
        Ok(Failure::NoProposalChosen)
    } else if data == NO_ADDITIONAL_SAS {
        Ok(Failure::NoAdditionalSas)
    } else if data == TEMPORARY_FAILURE {
        Ok(Failure::TemporaryFailure)
    } else {
        spi_behind(&CHILD_SA_NOT_FOUND, data).map(|spi| Failure::ChildSaNotFound { spi })
    }
}

fn spi_behind(opening: &[u8; 4], data: &[u8]) -> Result<u32, Unreadable> {
    exactly_four(data.strip_prefix(opening).ok_or(Unreadable::Payload)?)
}

fn exactly_four(octets: &[u8]) -> Result<u32, Unreadable> {
    <[u8; 4]>::try_from(octets).map(u32::from_be_bytes).map_err(|_| Unreadable::Payload)
}

fn four(octets: &[u8]) -> u32 {
    octets.iter().fold(0, |number, &octet| number << 8 | u32::from(octet))
}

fn eight(octets: &[u8]) -> [u8; 8] {
    let mut array = [0; 8];
    array.copy_from_slice(octets);
    array
}

impl Body {
    fn exchange_type(&self) -> u8 {
        match self {
            Body::Request(Request::Create { .. } | Request::Rekey { .. }) => CREATE_CHILD_SA,
            Body::Response(Response::New { .. } | Response::Failed(_)) => CREATE_CHILD_SA,
            Body::Request(Request::Delete { .. } | Request::Empty) => INFORMATIONAL,
            Body::Response(Response::Delete { .. } | Response::Empty) => INFORMATIONAL,
        }
    }

    /// The payloads in order: their types, and their octets behind the first four.
    fn payloads(&self) -> Vec<(u8, Vec<u8>)> {
        match self {
            Body::Request(Request::Create { spi, nonce }) | Body::Response(Response::New { spi, nonce }) => {
                offer(*spi, nonce)
            }
            Body::Request(Request::Rekey { old, spi, nonce }) => {
                let mut payloads = vec![(kind::NOTIFY, with_spi(&REKEY_SA, *old))];
                payloads.extend(offer(*spi, nonce));
                payloads
            }
            Body::Response(Response::Failed(failure)) => vec![(kind::NOTIFY, notify(*failure))],
            Body::Request(Request::Delete { spi }) | Body::Response(Response::Delete { spi }) => {
                vec![(kind::DELETE, with_spi(&DELETE_ONE_ESP_SPI, *spi))]
            }
            Body::Request(Request::Empty) | Body::Response(Response::Empty) => Vec::new(),
        }
    }
}

fn offer(spi: u32, nonce: &Nonce) -> Vec<(u8, Vec<u8>)> {
    let mut sa = PROPOSAL.to_vec();
    sa.extend(spi.to_be_bytes());
    sa.extend(TRANSFORMS);
    vec![
        (kind::SA, sa),
        (kind::NONCE, nonce.octets().to_vec()),
        (kind::TS_I, ALL_OF_IPV4.to_vec()),
        (kind::TS_R, ALL_OF_IPV4.to_vec()),
    ]
}

fn notify(failure: Failure) -> Vec<u8> {
    match failure {
        Failure::NoProposalChosen => NO_PROPOSAL_CHOSEN.to_vec(),
        Failure::NoAdditionalSas => NO_ADDITIONAL_SAS.to_vec(),
        Failure::TemporaryFailure => TEMPORARY_FAILURE.to_vec(),
        Failure::ChildSaNotFound { spi } => with_spi(&CHILD_SA_NOT_FOUND, spi),
    }
}

fn with_spi(opening: &[u8; 4], spi: u32) -> Vec<u8> {
    let mut data = opening.to_vec();
    data.extend(spi.to_be_bytes());
    data
}

impl fmt::Display for Message {
    fn fmt(&self, f: &mut fmt::Formatter<'_>) -> fmt::Result {
        let (a, b) = (hex::format(&self.ike.a), hex::format(&self.ike.b));
        write!(f, "ike {a} {b} {} ", self.sender)?;
        match &self.body {
            Body::Request(request) => write!(f, "request {} {request}", self.id),
            Body::Response(response) => write!(f, "response {} {response}", self.id),
        }
    }
}

impl fmt::Display for Request {
    fn fmt(&self, f: &mut fmt::Formatter<'_>) -> fmt::Result {
        match self {
            Request::Create { spi, nonce } => write!(f, "create spi {spi} nonce {nonce}"),
            Request::Rekey { old, spi, nonce } => write!(f, "rekey old {old} spi {spi} nonce {nonce}"),
            Request::Delete { spi } => write!(f, "delete spi {spi}"),
            Request::Empty => f.write_str("empty"),
        }
    }
}

impl fmt::Display for Response {
    fn fmt(&self, f: &mut fmt::Formatter<'_>) -> fmt::Result {
        match self {
            Response::New { spi, nonce } => write!(f, "new spi {spi} nonce {nonce}"),
            Response::Failed(Failure::ChildSaNotFound { spi }) => write!(f, "notify 44 spi {spi}"),
            Response::Failed(failure) => write!(f, "notify {}", failure.number()),
            Response::Delete { spi } => write!(f, "delete spi {spi}"),
            Response::Empty => f.write_str("empty"),
        }
    }
}

#[cfg(test)]
mod tests {
    use super::*;

    const DELETE: &str = "010203040506070811121314151617182a20250800000005000000280000000c03040001000003e8";

    fn message(body: Body) -> Message {
        Message { ike: IkeSpis { a: [1; 8], b: [2; 8] }, sender: Side::B, id: 7, body }
    }

    fn refusal(text: &str) -> Option<u8> {
        Message::decode(&hex::parse(text).unwrap()).err().map(Unreadable::number)
    }

    #[test]
    fn a_delete_is_read_and_written() {
        let octets = hex::parse(DELETE).unwrap();
        let message = Message::decode(&octets).unwrap();
        assert_eq!(message.to_string(), "ike 0102030405060708 1112131415161718 A request 5 delete spi 1000");
        assert_eq!(message.encode(), octets);
    }

    #[test]
    fn every_kind_comes_back_from_its_octets() {
        let nonce = Nonce::new(&[9; 32]).unwrap();
        let bodies = [
            Body::Request(Request::Create { spi: 1, nonce: nonce.clone() }),
            Body::Request(Request::Rekey { old: 3, spi: 1, nonce: nonce.clone() }),
            Body::Request(Request::Delete { spi: 5 }),
            Body::Request(Request::Empty),
            Body::Response(Response::New { spi: 1, nonce }),
            Body::Response(Response::Failed(Failure::NoProposalChosen)),
            Body::Response(Response::Failed(Failure::NoAdditionalSas)),
            Body::Response(Response::Failed(Failure::TemporaryFailure)),
            Body::Response(Response::Failed(Failure::ChildSaNotFound { spi: 8 })),
            Body::Response(Response::Delete { spi: 5 }),
            Body::Response(Response::Empty),
        ];
        let lengths = [148, 160, 40, 28, 148, 36, 36, 36, 40, 40, 28];
        for (body, length) in bodies.into_iter().zip(lengths) {
            let message = message(body);
            let octets = message.encode();
            assert_eq!(octets.len(), length);
            assert_eq!(Message::decode(&octets), Ok(message));
        }
    }

    #[test]
    fn the_first_failing_check_is_told() {
        assert_eq!(refusal("00"), Some(40));
        assert_eq!(refusal(&DELETE.replace("00000028", "00000027")), Some(40));
        assert_eq!(refusal(&DELETE.replace("2a2025", "2a2125")), Some(41));
        assert_eq!(refusal(&DELETE.replace("2a202508", "2a202510")), Some(41));
        assert_eq!(refusal(&DELETE.replace("2a2025", "292025")), Some(42));
        assert_eq!(refusal(&DELETE.replace("0000000c", "2a00000c")), Some(42));
        assert_eq!(refusal(&DELETE.replace("0c0304", "0c0204")), Some(43));
        assert_eq!(refusal(DELETE), None);
    }
}
