//! A second, independent implementation of the script language for two IKE ends and their Child SAs, written from the
//! rules alone, and a generator of histories that compares it with another program.

pub mod book;
pub mod channel;
pub mod command;
pub mod end;
pub mod hex;
pub mod histories;
pub mod ladder;
pub mod law;
pub mod message;
pub mod nonce;
pub mod pair;
pub mod script;
pub mod side;
pub mod words;
