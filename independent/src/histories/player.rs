//! Plays lines while they are being made, so that each may depend on what the ends have by then.

use std::ops::Range;

use crate::pair::Pair;
use crate::script::{Happened, Session};

use super::reach::Reach;

/// One history within the lines of a player.
#[derive(Clone, Debug)]
pub struct History {
    pub title: String,
    pub lines: Range<usize>,
    /// Which lines of the output answer it.
    pub output: Range<usize>,
    /// The first break of the law in it, if there was one.
    pub violation: Option<String>,
}

pub struct Player {
    pub session: Session<Reach>,
    pub lines: Vec<String>,
    pub output: String,
    pub histories: Vec<History>,
    output_lines: usize,
}

impl Default for Player {
    fn default() -> Player {
        Player {
            session: Session::new(Reach::default()),
            lines: Vec::new(),
            output: String::new(),
            histories: Vec::new(),
            output_lines: 0,
        }
    }
}

impl Player {
    /// Begins another history with a comment.
    pub fn begin(&mut self, title: String) {
        let (lines, output) = (self.lines.len(), self.output_lines);
        let comment = format!("# {title}");
        self.histories.push(History { title, lines: lines..lines, output: output..output, violation: None });
        self.session.observer().histories += 1;
        self.say(comment);
    }

    pub fn say(&mut self, line: impl Into<String>) -> Happened {
        let line = line.into();
        let start = self.output.len();
        let happened = self.session.answer(&line, &mut self.output);
        self.lines.push(line);
        let answer = self.output[start..].trim_end_matches('\n');
        self.output_lines += self.output[start..].matches('\n').count();
        let mut reach = std::mem::take(self.session.observer());
        reach.lines += 1;
        reach.note(&happened, answer, self.session.channel());
        *self.session.observer() = reach;
        self.note_in_history();
        happened
    }

    fn note_in_history(&mut self) {
        if let Some(history) = self.histories.last_mut() {
            history.lines.end = self.lines.len();
            history.output.end = self.output_lines;
            if history.violation.is_none() {
                history.violation = self.session.pair().and_then(Pair::violation).map(str::to_string);
            }
        }
    }

    /// The number of the answer of a call of an end.
    pub fn ask(&mut self, line: String) -> Option<u8> {
        match self.say(line) {
            Happened::Answered(_, numbers) => numbers.first().copied(),
            Happened::Nothing | Happened::Wrong => None,
        }
    }

    pub fn text(&self) -> String {
        let mut text = self.lines.join("\n");
        text.push('\n');
        text
    }
}
