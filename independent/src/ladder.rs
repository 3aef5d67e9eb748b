//! The picture of the messages between two ends: time goes down, A is at the left, B at the right.

use std::fmt;

use crate::channel::Fate;
use crate::message::{Body, Failure, Message, Request, Response};
use crate::side::Side;

const SHAFT: usize = 62;

/// Something that happened to a message at one of the ends.
#[derive(Clone, PartialEq, Eq, Debug)]
struct Step {
    at: Side,
    datagram: Vec<u8>,
    what: What,
}

#[derive(Clone, Copy, PartialEq, Eq, Debug)]
enum What {
    /// Nothing means that it was not taken.
    Sent(Option<Fate>),
    /// With the number of the answer, where it was refused.
    Came(Option<u8>),
}

#[derive(Clone, Default, Debug)]
pub struct Ladder {
    steps: Vec<Step>,
}

impl Ladder {
    pub fn sent(&mut self, by: Side, datagram: &[u8], fate: Option<Fate>) {
        self.steps.push(Step { at: by, datagram: datagram.to_vec(), what: What::Sent(fate) });
    }

    pub fn came(&mut self, at: Side, datagram: &[u8]) {
        self.steps.push(Step { at, datagram: datagram.to_vec(), what: What::Came(None) });
    }

    /// Notes the refusal of what came last. A refused delivery sends nothing, so that is the last step.
    pub fn refuse_last(&mut self, number: u8) {
        if let Some(Step { what: What::Came(refusal), .. }) = self.steps.last_mut() {
            *refusal = Some(number);
        }
    }

    pub fn len(&self) -> usize {
        self.steps.len()
    }

    pub fn is_empty(&self) -> bool {
        self.steps.is_empty()
    }

    /// How many messages were sent.
    pub fn messages(&self) -> usize {
        self.steps.iter().filter(|step| matches!(step.what, What::Sent(_))).count()
    }
}

impl fmt::Display for Ladder {
    fn fmt(&self, f: &mut fmt::Formatter<'_>) -> fmt::Result {
        write!(f, "A{}B", " ".repeat(SHAFT + 1))?;
        self.steps.iter().try_for_each(|step| write!(f, "\n{step}"))
    }
}

impl fmt::Display for Step {
    fn fmt(&self, f: &mut fmt::Formatter<'_>) -> fmt::Result {
        let shaft = self.shaft();
        match self.at {
            Side::A => write!(f, "o{shaft} |")?,
            Side::B => write!(f, "| {shaft}o")?,
        }
        match self.what {
            What::Sent(None) => f.write_str(" not taken"),
            What::Sent(Some(Fate::Lost)) => f.write_str(" lost"),
            What::Sent(Some(Fate::Twice)) => f.write_str(" twice"),
            What::Came(Some(number)) => write!(f, " refused {number}"),
            What::Sent(Some(Fate::ComesOnce | Fate::Jumps)) | What::Came(None) => Ok(()),
        }
    }
}

impl Step {
    fn shaft(&self) -> String {
        let label = label(&self.datagram);
        let goes_no_further = matches!(self.what, What::Sent(None | Some(Fate::Lost)));
        if self.goes_to_b() {
            let head = if goes_no_further { 'x' } else { '>' };
            format!("{:-<width$}{head}", format!("-- {label} "), width = SHAFT - 1)
        } else {
            let head = if goes_no_further { 'x' } else { '<' };
            format!("{:-<SHAFT$}", format!("{head}-- {label} "))
        }
    }

    fn goes_to_b(&self) -> bool {
        match self.what {
            What::Sent(_) => self.at == Side::A,
            What::Came(_) => self.at == Side::B,
        }
    }
}

fn label(datagram: &[u8]) -> String {
    match Message::decode(datagram) {
        Ok(Message { id, body: Body::Request(request), .. }) => format!("request {id} {}", request_label(&request)),
        Ok(Message { id, body: Body::Response(response), .. }) => {
            format!("response {id} {}", response_label(&response))
        }
        Err(_) => format!("{} octets", datagram.len()),
    }
}

fn request_label(request: &Request) -> String {
    match request {
        Request::Create { spi, .. } => format!("create {spi}"),
        Request::Rekey { old, spi, .. } => format!("rekey {old} by {spi}"),
        Request::Delete { spi } => format!("delete {spi}"),
        Request::Empty => "empty".to_string(),
    }
}

fn response_label(response: &Response) -> String {
    match response {
        Response::New { spi, .. } => format!("new {spi}"),
        Response::Failed(Failure::ChildSaNotFound { spi }) => format!("notify 44 {spi}"),
        Response::Failed(failure) => format!("notify {}", failure.number()),
        Response::Delete { spi } => format!("delete {spi}"),
        Response::Empty => "empty".to_string(),
    }
}

#[cfg(test)]
mod tests {
    use super::*;
    use crate::message::IkeSpis;
    use crate::nonce::Nonce;

    fn octets(sender: Side, body: Body) -> Vec<u8> {
        Message { ike: IkeSpis { a: [1; 8], b: [2; 8] }, sender, id: 1, body }.encode()
    }

    #[test]
    fn the_worked_picture() {
        let nonce = Nonce::new(&[7; 16]).unwrap();
        let request = octets(Side::A, Body::Request(Request::Create { spi: 1000, nonce: nonce.clone() }));
        let response = octets(Side::B, Body::Response(Response::New { spi: 2000, nonce }));
        let mut ladder = Ladder::default();
        ladder.sent(Side::A, &request, Some(Fate::ComesOnce));
        ladder.came(Side::B, &request);
        ladder.sent(Side::B, &response, Some(Fate::ComesOnce));
        ladder.came(Side::A, &response);
        let picture = "\
A                                                               B
o-- request 1 create 1000 ------------------------------------> |
| -- request 1 create 1000 ------------------------------------>o
| <-- response 1 new 2000 --------------------------------------o
o<-- response 1 new 2000 -------------------------------------- |";
        assert_eq!(ladder.to_string(), picture);
    }

    #[test]
    fn what_went_wrong_stands_behind_the_line() {
        let empty = octets(Side::A, Body::Request(Request::Empty));
        let mut ladder = Ladder::default();
        ladder.sent(Side::A, &empty, Some(Fate::Lost));
        ladder.sent(Side::A, &empty, None);
        ladder.sent(Side::B, &empty, Some(Fate::Twice));
        ladder.came(Side::B, &[1, 2, 3]);
        ladder.refuse_last(40);
        let picture = ladder.to_string();
        let lines: Vec<&str> = picture.lines().skip(1).collect();
        assert!(lines[0].starts_with("o-- request 1 empty ---") && lines[0].ends_with("-x | lost"));
        assert!(lines[1].ends_with("-x | not taken"));
        assert!(lines[2].starts_with("| <-- request 1 empty --") && lines[2].ends_with("--o twice"));
        assert!(lines[3].starts_with("| -- 3 octets --") && lines[3].ends_with("->o refused 40"));
    }
}
