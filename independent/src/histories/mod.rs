//! Histories: seeded scripts, made in step with this implementation, to compare it with another program.

pub mod batch;
pub mod books;
pub mod channels;
pub mod compare;
pub mod ends;
pub mod messages;
pub mod nonces;
pub mod other;
pub mod player;
pub mod random;
pub mod reach;
pub mod shrink;
pub mod systematic;
pub mod wrong;
