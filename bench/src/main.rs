//! Times the functions of the Rattle crates and those of the independent program side by side, in one binary, on the same
//! inputs. Both give a number made of all results, and these must agree.

mod rattle;
mod rust;

use std::env;
use std::hint::black_box;
use std::process::ExitCode;
use std::time::Instant;

use rattle::NoncePair;

/// How often each side of a line is timed in one run.
const REPEATS: usize = 15;

/// A repeat of one side takes at least about so long.
const LEAST_NANOSECONDS: f64 = 4e6;

/// The nanoseconds of one time on both sides, of every repeat of every run, and the ratio of each run: Rust's least by Rattle's.
#[derive(Default)]
struct Line {
    name: String,
    rattle: Vec<f64>,
    rust: Vec<f64>,
    ratios: Vec<f64>,
}

fn least(each: &[f64]) -> f64 {
    each.iter().copied().fold(f64::INFINITY, f64::min)
}

fn most(each: &[f64]) -> f64 {
    each.iter().copied().fold(0.0, f64::max)
}

/// At the least, in the middle and at the most.
fn spread(each: &[f64]) -> [f64; 3] {
    let mut sorted = each.to_vec();
    sorted.sort_by(f64::total_cmp);
    [sorted[0], sorted[sorted.len() / 2], sorted[sorted.len() - 1]]
}

impl Line {
    fn ratio(&self) -> f64 {
        least(&self.rust) / least(&self.rattle)
    }

    fn print(&self) {
        print!("    {:<32}", self.name);
        for number in spread(&self.rattle).into_iter().chain(spread(&self.rust)) {
            print!(" {number:>8.1}");
        }
        println!("  {:>6.2} {:>6.2} {:>6.2}", self.ratio(), least(&self.ratios), most(&self.ratios));
    }
}

fn nanoseconds(run: &mut dyn FnMut(u32) -> u64, times: u32) -> (f64, u64) {
    let start = Instant::now();
    let number = black_box(run(black_box(times)));
    (start.elapsed().as_secs_f64() * 1e9, number)
}

/// So many times that a repeat is long enough.
fn times_of(run: &mut dyn FnMut(u32) -> u64) -> u32 {
    let mut times = 16;
    while nanoseconds(run, times).0 < LEAST_NANOSECONDS {
        times *= 2;
    }
    times
}

/// All lines, of so many runs.
#[derive(Default)]
struct Bench {
    wanted: String,
    is_last_run: bool,
    disagree: bool,
    lines: Vec<Line>,
}

impl Bench {
    /// The place of the line of this name.
    fn place(&mut self, name: &str) -> usize {
        let there = self.lines.iter().position(|line| line.name == name);
        there.unwrap_or_else(|| {
            self.lines.push(Line { name: name.to_owned(), ..Line::default() });
            self.lines.len() - 1
        })
    }

    /// Times one line, and prints it in the last run. The two sides take turns, so that what else runs on the machine meets both.
    fn line(&mut self, name: &str, rattle: &mut dyn FnMut(u32) -> u64, rust: &mut dyn FnMut(u32) -> u64) {
        if !name.contains(&self.wanted) {
            return;
        }
        let times = times_of(rattle).max(times_of(rust));
        let (mut of_rattle, mut of_rust) = (Vec::new(), Vec::new());
        for _ in 0..REPEATS {
            let (nanoseconds_of_rattle, number) = nanoseconds(rattle, times);
            let (nanoseconds_of_rust, number_of_rust) = nanoseconds(rust, times);
            if number != number_of_rust {
                println!("{name}: {number:#x} and {number_of_rust:#x} are NOT the same");
                self.disagree = true;
                return;
            }
            of_rattle.push(nanoseconds_of_rattle / f64::from(times));
            of_rust.push(nanoseconds_of_rust / f64::from(times));
        }
        let place = self.place(name);
        let line = &mut self.lines[place];
        line.ratios.push(least(&of_rust) / least(&of_rattle));
        line.rattle.append(&mut of_rattle);
        line.rust.append(&mut of_rust);
        if self.is_last_run {
            self.lines[place].print();
        }
    }

    fn messages(&mut self, nonce: &[u8]) {
        let kinds = [
            (1, "create request"),
            (2, "rekey request"),
            (3, "delete request"),
            (4, "empty request"),
            (5, "new response"),
            (6, "failed response, 43"),
            (7, "failed response, 44"),
            (8, "delete response"),
            (9, "empty response"),
        ];
        let mut out = [0; 160];
        for (kind, name) in kinds {
            let octets = rust::message(kind, nonce);
            self.line(
                &format!("decode {name}"),
                &mut |times| sum(times, || rattle::decode(black_box(&octets))),
                &mut |times| sum(times, || rust::decode(black_box(&octets))),
            );
            self.line(&format!("encode {name}"), &mut |times| rattle::encode(&octets, &mut out, times), &mut |times| {
                rust::encode(&octets, times)
            });
        }
        for (place, name) in [(23, "length"), (17, "version"), (28, "chain"), (140, "payload")] {
            let mut octets = rust::message(1, nonce);
            octets[place] ^= 0x40;
            if place == 23 {
                octets.pop();
            }
            self.line(
                &format!("decode refused, {name}"),
                &mut |times| sum(times, || rattle::decode(black_box(&octets))),
                &mut |times| sum(times, || rust::decode(black_box(&octets))),
            );
        }
    }

    fn nonces(&mut self) {
        for (alike, name) in [(0, "differ at once"), (28, "differ after 28")] {
            let pairs = four_pairs(alike);
            self.line(&format!("lower, {name}"), &mut |n| rattle::lower(&pairs, n), &mut |n| rust::lower(&pairs, n));
            self.line(&format!("loser, {name}"), &mut |n| rattle::loser(&pairs, n), &mut |n| rust::loser(&pairs, n));
        }
    }

    fn books(&mut self, nonce: &[u8]) {
        for (table, book) in [(false, "ordered"), (true, "table")] {
            for rows in [1, 4, 8, 16] {
                self.line(
                    &format!("{book}: made, {rows} put"),
                    &mut |n| sum(n, || rattle::fill(table, black_box(rows), nonce)),
                    &mut |n| sum(n, || rust::fill(table, black_box(rows), nonce)),
                );
                self.line(
                    &format!("{book}: put and drop, {rows} rows"),
                    &mut |n| rattle::put_and_drop(table, rows - 1, nonce, n),
                    &mut |n| rust::put_and_drop(table, rows - 1, nonce, n),
                );
                self.line(
                    &format!("{book}: find, {rows} rows"),
                    &mut |n| rattle::find(table, rows, nonce, n),
                    &mut |n| rust::find(table, rows, nonce, n),
                );
                self.line(
                    &format!("{book}: read, {rows} rows"),
                    &mut |n| rattle::read(table, rows, nonce, n),
                    &mut |n| rust::read(table, rows, nonce, n),
                );
            }
        }
    }

    fn pairs(&mut self, low: &[u8], high: &[u8]) {
        for (table, books) in [(false, "ordered"), (true, "table")] {
            self.line(&format!("pair: made, {books}"), &mut |n| sum(n, || rattle::made(black_box(table))), &mut |n| {
                sum(n, || rust::made(black_box(table)))
            });
            self.line(
                &format!("pair: rekey, {books}"),
                &mut |n| sum(n, || rattle::rekey(black_box(table), low, high)),
                &mut |n| sum(n, || rust::rekey(black_box(table), low, high)),
            );
            self.line(
                &format!("pair: collision, {books}"),
                &mut |n| sum(n, || rattle::collision(black_box(table), low, high)),
                &mut |n| sum(n, || rust::collision(black_box(table), low, high)),
            );
        }
    }
}

fn sum(times: u32, mut call: impl FnMut() -> u64) -> u64 {
    (0..times).fold(0, |all, _| all.wrapping_mul(31).wrapping_add(call()))
}

/// The nonces of four exchanges, of which so many octets in front are alike.
fn four_pairs(alike: usize) -> [NoncePair; 4] {
    let mut state: u32 = 2463534242;
    let mut nonce = || {
        let mut octets = [0x55; 32];
        for octet in &mut octets[alike..] {
            state ^= state << 13;
            state ^= state >> 17;
            state ^= state << 5;
            *octet = state as u8;
        }
        octets
    };
    [(); 4].map(|()| NoncePair { initiator: nonce(), responder: nonce() })
}

/// How many runs there are to be, and a word that the lines are to have.
fn asked() -> (usize, String) {
    let mut words = env::args().skip(1);
    let runs = words.next().and_then(|runs| runs.parse().ok()).unwrap_or(1);
    (runs, words.next().unwrap_or_default())
}

fn main() -> ExitCode {
    let (runs, wanted) = asked();
    let mut bench = Bench { wanted, ..Bench::default() };
    let (low, high) = ([0x11; 32], [0x77; 32]);
    println!("    {:<32}  {:<26} {:<26}  ratio", "", "Rattle", "Rust");
    println!(
        "    {:<32}{} {} {:>7} {:>6} {:>6}",
        "", "    least   middle     most", "   least   middle     most", "", "lowest", "highest"
    );
    for run in 1..=runs {
        bench.is_last_run = run == runs;
        bench.messages(&high);
        bench.nonces();
        bench.books(&high);
        bench.pairs(&low, &high);
    }
    let lines = bench.lines.len();
    let fast = bench.lines.iter().filter(|line| line.ratio() >= 1.0).count();
    println!("\n{fast} of {lines} lines are at 1.00 or more.");
    if bench.disagree { ExitCode::FAILURE } else { ExitCode::SUCCESS }
}
