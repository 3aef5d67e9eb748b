//! Batches: many histories in one script.

use super::player::Player;
use super::random::Random;
use super::systematic::Part;
use super::{books, channels, ends, messages, nonces, wrong};

/// A batch that is to be played.
#[derive(Clone, Debug)]
pub enum Batch {
    Systematic(Vec<Part>),
    Random { seed: u64, first: u64, count: u64 },
}

impl Batch {
    pub fn play(&self) -> Player {
        let mut player = Player::default();
        match self {
            Batch::Systematic(parts) => {
                for part in parts {
                    player.begin(format!("{part:?}"));
                    part.play(&mut player);
                }
            }
            Batch::Random { seed, first, count } => {
                for number in *first..first + count {
                    play_history(&mut player, *seed, number);
                }
            }
        }
        player
    }
}

type Play = fn(&mut Player, &mut Random);

fn play_history(player: &mut Player, seed: u64, number: u64) {
    let mut random = Random::of_history(seed, number);
    let (name, play) = random.weighted::<(&str, Play)>(&[
        (66, ("ends", ends::play)),
        (12, ("books", books::play)),
        (9, ("channels", channels::play)),
        (7, ("messages", messages::play)),
        (3, ("nonces", nonces::play)),
        (3, ("lines", wrong::play)),
    ]);
    player.begin(format!("history {number} of seed {seed}: {name}"));
    play(player, &mut random);
}
