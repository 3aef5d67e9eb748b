//! Answers a script line by line.

use crate::book::{Book, CAPACITY, Refusal, Row, audit};
use crate::channel::{Channel, WrongLongest};
use crate::command::{self, Command};
use crate::hex;
use crate::message::Message;
use crate::nonce::{loser, lower};
use crate::pair::{Call, Making, Pair};
use crate::side::Side;
use crate::words::Wrong;

/// The answer to a whole script.
pub fn run(text: &str) -> String {
    let mut session = Session::new(());
    let mut output = String::new();
    for line in text.lines() {
        session.answer(line, &mut output);
    }
    output
}

/// What a line turned out to be, for whoever keeps count.
#[derive(Clone, Debug)]
pub enum Happened {
    Nothing,
    Wrong,
    Answered(Command, Numbers),
}

/// The numbers of the answers, and of refusals, of one command.
pub type Numbers = Vec<u8>;

/// Is told of each call of an end, since a round has several.
pub trait Observer {
    fn called(&mut self, pair: &Pair, side: Side, call: &Call, number: u8);
}

/// Nobody observes.
impl Observer for () {
    fn called(&mut self, _: &Pair, _: Side, _: &Call, _: u8) {}
}

/// The state between the lines of a script.
pub struct Session<O> {
    line: usize,
    books: [Option<Book>; 2],
    channel: Option<Channel>,
    pair: Option<Pair>,
    numbers: Numbers,
    observer: O,
}

impl<O: Observer> Session<O> {
    pub fn new(observer: O) -> Session<O> {
        Session { line: 0, books: [None, None], channel: None, pair: None, numbers: Vec::new(), observer }
    }

    pub fn observer(&mut self) -> &mut O {
        &mut self.observer
    }

    pub fn into_observer(self) -> O {
        self.observer
    }

    pub fn pair(&self) -> Option<&Pair> {
        self.pair.as_ref()
    }

    pub fn channel(&self) -> Option<&Channel> {
        self.channel.as_ref()
    }

    pub fn book(&self, side: Side) -> Option<&Book> {
        self.books[side.index()].as_ref()
    }

    /// Answers the next line, behind what is there in the output.
    pub fn answer(&mut self, line: &str, output: &mut String) -> Happened {
        self.line += 1;
        let before_comment = line.split('#').next().unwrap_or_default();
        let words: Vec<&str> = before_comment.split_whitespace().collect();
        if words.is_empty() {
            return Happened::Nothing;
        }
        self.numbers.clear();
        let answered = command::parse(&words).and_then(|command| {
            let answer = self.execute(&command, &words)?;
            Ok((command, answer))
        });
        let (text, happened) = match answered {
            Ok((command, answer)) => (answer, Happened::Answered(command, self.numbers.clone())),
            Err(wrong) => (format!("line {}: {wrong}", self.line), Happened::Wrong),
        };
        output.push_str(&text);
        output.push('\n');
        happened
    }

    fn execute(&mut self, command: &Command, words: &[&str]) -> Result<String, Wrong> {
        match command {
            Command::Decode(octets) => Ok(self.decode(octets)),
            Command::Encode(message) => Ok(hex::format(&message.encode())),
            Command::Lower(first, second) => Ok(lower(first, second).to_string()),
            Command::Loser { of_a, of_b } => Ok(loser(of_a, of_b).to_string()),
            Command::Help => Ok(HELP.to_string()),
            Command::Book(kind, side) => {
                self.books[side.index()] = Some(Book::new(*kind));
                Ok(format!("book {side} {kind}"))
            }
            Command::Put(side, row) => self.change_book(*side, |book| book.put(row.clone())),
            Command::Write(side, row) => self.change_book(*side, |book| book.write(row.clone())),
            Command::Drop(side, own) => self.change_book(*side, |book| book.remove(*own)),
            Command::Read(side, own) => {
                let read = self.started_book(*side)?.read(*own).map(Row::to_string);
                Ok(read.unwrap_or_else(|refusal| self.refused(refusal.number())))
            }
            Command::Find(side, peer) => Ok(spi_or_none(self.started_book(*side)?.find(*peer))),
            Command::Next(side, own) => Ok(spi_or_none(self.started_book(*side)?.next(*own))),
            Command::Rows(side) => Ok(format!("{} of {CAPACITY}", self.started_book(*side)?.len())),
            Command::Audit => Ok(audit(self.started_book(Side::A)?, self.started_book(Side::B)?).to_string()),
            Command::Channel(plan) => Ok(match Channel::make(plan.clone()) {
                Ok(channel) => {
                    let longest = channel.longest();
                    self.channel = Some(channel);
                    format!("{} longest {longest}", words.join(" "))
                }
                Err(WrongLongest) => self.refused(WrongLongest::NUMBER),
            }),
            Command::Mark => self.change_markers("marked", Channel::mark),
            Command::Unmark => self.change_markers("unmarked", Channel::unmark),
            Command::Send(to, datagram) => {
                let fate = self.made_channel()?.send(*to, datagram);
                Ok(if fate.is_some() { "taken" } else { "not taken" }.to_string())
            }
            Command::Receive { at, buffer } => {
                let came = self.made_channel()?.receive(*at, *buffer);
                Ok(came.map_or_else(|| "nothing".to_string(), |datagram| hex::format(&datagram)))
            }
            Command::Make(making) => {
                let number = self.make(making);
                Ok(format!("{} = {number}", words.join(" ")))
            }
            Command::Call(side, call) => {
                let number = self.call(*side, call)?;
                Ok(format!("{} = {number}", words.join(" ")))
            }
            Command::Round { times, nonce } => {
                let numbers = self.rounds(*times, nonce)?;
                Ok(format!("{} = {}", words.join(" "), numbers.join(" ")))
            }
            Command::Books => Ok(self.made_pair()?.books()),
            Command::Ends => Ok(self.made_pair()?.ends()),
            Command::Ladder => Ok(self.made_pair()?.ladder().to_string()),
        }
    }

    fn decode(&mut self, octets: &[u8]) -> String {
        match Message::decode(octets) {
            Ok(message) => message.to_string(),
            Err(check) => self.refused(check.number()),
        }
    }

    fn refused(&mut self, number: u8) -> String {
        self.numbers.push(number);
        format!("refused {number}")
    }

    fn started_book(&self, side: Side) -> Result<&Book, Wrong> {
        self.books[side.index()].as_ref().ok_or_else(|| format!("there is no book {side}"))
    }

    fn change_book(
        &mut self,
        side: Side,
        change: impl FnOnce(&mut Book) -> Result<(), Refusal>,
    ) -> Result<String, Wrong> {
        let book = self.books[side.index()].as_mut().ok_or_else(|| format!("there is no book {side}"))?;
        Ok(match change(book) {
            Ok(()) => "done".to_string(),
            Err(refusal) => self.refused(refusal.number()),
        })
    }

    fn made_channel(&mut self) -> Result<&mut Channel, Wrong> {
        self.channel.as_mut().ok_or_else(|| "there is no channel".to_string())
    }

    fn change_markers(&mut self, done: &str, change: impl FnOnce(&mut Channel) -> bool) -> Result<String, Wrong> {
        let channel = self.made_channel()?;
        if change(channel) {
            Ok(format!("{done}, longest {}", channel.longest()))
        } else {
            Err(format!("there are {} markers", channel.markers()))
        }
    }

    fn make(&mut self, making: &Making) -> u8 {
        let number = match Pair::make(making.clone()) {
            Ok(pair) => {
                self.pair = Some(pair);
                0
            }
            Err(reason) => reason.number(),
        };
        self.numbers.push(number);
        number
    }

    fn made_pair(&mut self) -> Result<&mut Pair, Wrong> {
        self.pair.as_mut().ok_or_else(no_ends)
    }

    fn call(&mut self, side: Side, call: &Call) -> Result<u8, Wrong> {
        let pair = self.pair.as_mut().ok_or_else(no_ends)?;
        let number = pair.call(side, call).number();
        self.observer.called(pair, side, call, number);
        self.numbers.push(number);
        Ok(number)
    }

    fn rounds(&mut self, times: u32, nonce: &[u8]) -> Result<Vec<String>, Wrong> {
        let delivery = Call::Deliver { nonce: nonce.to_vec() };
        let mut numbers = Vec::new();
        for _ in 0..times {
            for side in Side::BOTH {
                numbers.push(self.call(side, &delivery)?.to_string());
            }
        }
        Ok(numbers)
    }
}

fn no_ends() -> Wrong {
    "there are no ends".to_string()
}

fn spi_or_none(spi: Option<u32>) -> String {
    spi.map_or_else(|| "none".to_string(), |spi| spi.to_string())
}

const HELP: &str = "\
decode HEX, encode MESSAGE      a message from its octets, and the octets of one
lower NONCE NONCE               the lower nonce
loser NI NR NI NR               whose new SA loses
book KIND A|B                   starts a book, ordered or table
put, write A|B ROW              adds or changes a row
read, drop, find, next A|B N    reads, drops or looks for rows
rows A|B, audit                 how many rows; rows without their mirror
channel BOTTOM [marker ...]     makes a channel: queue N, stack N or trace N FATES
mark, unmark                    one marker more, or one less
send A|B HEX, receive A|B [N]   over that channel
make CHANNEL ids N N spis N N ike HEX HEX books KIND KIND
A|B create, rekey, delete, check, resend, deliver
round N OCTETS                  deliveries to A and B
books, ends, ladder             what two ends have and had";

#[cfg(test)]
mod tests {
    use super::*;

    #[test]
    fn the_worked_script() {
        let script = "\
encode ike 0102030405060708 1112131415161718 A request 5 delete spi 1000
decode 010203040506070811121314151617182a20250800000005000000280000000c03040001000003e8
loser 55 77 44 66
book table A
put A row 1000 0 1 0 parent 0 0 ni 55 nr -
put A row 1000 2000 2 0 parent 0 0 ni 55 nr 77
read A 1000
channel trace 160 l2 marker
send B 01
send B 02
receive B
";
        let output = "\
010203040506070811121314151617182a20250800000005000000280000000c03040001000003e8
ike 0102030405060708 1112131415161718 A request 5 delete spi 1000
B
book A table
done
refused 61
row 1000 0 1 0 parent 0 0 ni 55555555555555555555555555555555 nr -
channel trace 160 l2 marker longest 156
taken
taken
02
";
        assert_eq!(run(script), output);
    }

    #[test]
    fn two_ends_and_their_ladder() {
        let script = "\
A check
make queue 160 ids 1 0 spis 1000 2000 ike 0102030405060708 1112131415161718 books ordered table
A   create 55  # one octet alone
B deliver 77
A deliver -
A deliver 77
books
ends
ladder
make queue 160 ids 0 0 spis 255 2000 ike 0102030405060708 1112131415161718 books ordered table
make queue 31 ids 0 0 spis 255 2000 ike 0102030405060708 1112131415161718 books ordered table
round 1 aa
";
        let output = "\
line 1: there are no ends
make queue 160 ids 1 0 spis 1000 2000 ike 0102030405060708 1112131415161718 books ordered table = 0
A create 55 = 0
B deliver 77 = 0
A deliver - = 30
A deliver 77 = 0
book A ordered, 1 of 16
row 1000 2000 3 0 parent 0 0 ni 55555555555555555555555555555555 nr 77777777777777777777777777777777
book B table, 1 of 16
row 2000 1000 2 1 parent 0 0 ni 55555555555555555555555555555555 nr 77777777777777777777777777777777
all rows have their mirror
A next 2 expected 0 spi 1001 quiet
B next 0 expected 2 spi 2001 quiet
A                                                               B
o-- request 1 create 1000 ------------------------------------> |
| -- request 1 create 1000 ------------------------------------>o
| <-- response 1 new 2000 --------------------------------------o
o<-- response 1 new 2000 -------------------------------------- |
make queue 160 ids 0 0 spis 255 2000 ike 0102030405060708 1112131415161718 books ordered table = 10
make queue 31 ids 0 0 spis 255 2000 ike 0102030405060708 1112131415161718 books ordered table = 11
round 1 aa = 31 31
";
        assert_eq!(run(script), output);
    }

    #[test]
    fn markers_go_on_and_off() {
        let script =
            "channel queue 40 marker marker\nsend A 01\nmark\nmark\nreceive A\nunmark\nunmark\nunmark\nunmark\n";
        let output = run(script);
        let lines: Vec<&str> = output.lines().collect();
        assert_eq!(lines[1..3], ["taken", "marked, longest 28"]);
        assert!(lines[3].starts_with("line 4: "));
        assert_eq!(lines[4..8], ["nothing", "unmarked, longest 32", "unmarked, longest 36", "unmarked, longest 40"]);
        assert!(lines[8].starts_with("line 9: "));
    }
}
