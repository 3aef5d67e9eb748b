//! `histories N SEED PROGRAM`: makes N histories by a seed, plays each here and in the other program, and compares the
//! outputs. With `-` for the program, the histories are only played here and held against the law.
//!
//! `histories show NUMBER SEED` prints the script of one history.

use std::path::Path;
use std::process::ExitCode;
use std::sync::Mutex;
use std::sync::atomic::{AtomicBool, AtomicUsize, Ordering};
use std::time::{Duration, Instant};

use independent::histories::batch::Batch;
use independent::histories::compare::first_difference;
use independent::histories::other::OtherProgram;
use independent::histories::player::{History, Player};
use independent::histories::reach::Reach;
use independent::histories::shrink::shrink;
use independent::histories::systematic;
use independent::pair::Pair;
use independent::script::{self, Session};

const HISTORIES_A_BATCH: u64 = 1000;
const PARTS_A_BATCH: usize = 100;

fn main() -> ExitCode {
    let arguments: Vec<String> = std::env::args().skip(1).collect();
    if let Some(script) = parse_show(&arguments) {
        print!("{script}");
        return ExitCode::SUCCESS;
    }
    match parse(&arguments) {
        Some(task) => run(&task),
        None => {
            eprintln!("histories N SEED PROGRAM, with - for no other program; or histories show NUMBER SEED");
            ExitCode::from(2)
        }
    }
}

fn parse_show(arguments: &[String]) -> Option<String> {
    let [show, number, seed] = arguments else {
        return None;
    };
    let (first, seed) = (number.parse().ok()?, seed.parse().ok()?);
    (show == "show").then(|| Batch::Random { seed, first, count: 1 }.play().text())
}

struct Task {
    histories: u64,
    seed: u64,
    other: Option<OtherProgram>,
}

fn parse(arguments: &[String]) -> Option<Task> {
    let [histories, seed, program] = arguments else {
        return None;
    };
    let other = (program != "-").then(|| OtherProgram::at(Path::new(program)));
    Some(Task { histories: histories.parse().ok()?, seed: seed.parse().ok()?, other })
}

/// What went wrong in a batch.
struct Failure {
    batch: usize,
    what: What,
}

enum What {
    /// The outputs differ, first in the answer to the first of these histories.
    Difference {
        histories: Vec<Titled>,
        all_before: Vec<String>,
    },
    Violation {
        history: Titled,
        reason: String,
    },
    Broken(String),
}

/// A history taken out of its batch.
#[derive(Clone)]
struct Titled {
    title: String,
    lines: Vec<String>,
}

/// What the threads have found together.
#[derive(Default)]
struct Found {
    reach: Reach,
    failures: Vec<Failure>,
    playing: Duration,
}

fn run(task: &Task) -> ExitCode {
    let start = Instant::now();
    let batches = batches(task);
    let mut found = play_all(task, &batches);
    print!("{}", found.reach.report());
    println!(
        "{:.1} seconds in all; {:.1} seconds of them, added up over the threads, in this implementation and its generator",
        start.elapsed().as_secs_f64(),
        found.playing.as_secs_f64()
    );
    found.failures.sort_by_key(|failure| failure.batch);
    if let Some(failure) = found.failures.first() {
        report(task, &failure.what);
        return ExitCode::FAILURE;
    }
    let missing = found.reach.missing();
    if !missing.is_empty() {
        println!("NOT REACHED: {}", missing.join("; "));
        return ExitCode::FAILURE;
    }
    match task.other {
        Some(_) => println!("no difference, and no violation of the law"),
        None => println!("no violation of the law; there was no other program"),
    }
    ExitCode::SUCCESS
}

fn batches(task: &Task) -> Vec<Batch> {
    let parts = systematic::parts();
    let mut batches: Vec<Batch> = parts.chunks(PARTS_A_BATCH).map(|chunk| Batch::Systematic(chunk.to_vec())).collect();
    let mut first = 0;
    while first < task.histories {
        let count = HISTORIES_A_BATCH.min(task.histories - first);
        batches.push(Batch::Random { seed: task.seed, first, count });
        first += count;
    }
    batches
}

fn play_all(task: &Task, batches: &[Batch]) -> Found {
    let found = Mutex::new(Found::default());
    let next = AtomicUsize::new(0);
    let is_over = AtomicBool::new(false);
    let threads = std::thread::available_parallelism().map_or(1, |count| count.get());
    std::thread::scope(|scope| {
        for _ in 0..threads {
            scope.spawn(|| {
                while !is_over.load(Ordering::Relaxed) {
                    let number = next.fetch_add(1, Ordering::Relaxed);
                    let Some(batch) = batches.get(number) else {
                        break;
                    };
                    let start = Instant::now();
                    let player = batch.play();
                    let playing = start.elapsed();
                    let what = look_at(task, &player);
                    let mut found = found.lock().unwrap_or_else(|poisoned| poisoned.into_inner());
                    found.playing += playing;
                    found.reach.add(&player.session.into_observer());
                    if let Some(what) = what {
                        found.failures.push(Failure { batch: number, what });
                        is_over.store(true, Ordering::Relaxed);
                    }
                }
            });
        }
    });
    found.into_inner().unwrap_or_else(|poisoned| poisoned.into_inner())
}

fn look_at(task: &Task, player: &Player) -> Option<What> {
    if let Some(what) = violation(player) {
        return Some(what);
    }
    let other = task.other.as_ref()?;
    match other.answer(&player.text()) {
        Ok(output) => first_difference(&player.output, &output).map(|line| difference(player, &output, line)),
        Err(reason) => Some(What::Broken(reason)),
    }
}

fn take_out(player: &Player, history: &History) -> Titled {
    Titled { title: history.title.clone(), lines: player.lines[history.lines.clone()].to_vec() }
}

fn violation(player: &Player) -> Option<What> {
    let history = player.histories.iter().find(|history| history.violation.is_some())?;
    Some(What::Violation { history: take_out(player, history), reason: history.violation.clone().unwrap_or_default() })
}

fn difference(player: &Player, output: &str, line: usize) -> What {
    let index = player.histories.iter().position(|history| history.output.end > line);
    let first = index.unwrap_or(player.histories.len() - 1);
    let mut histories = vec![take_out(player, &player.histories[first])];
    histories.extend(differing_too(player, output, first).map(|history| take_out(player, history)));
    What::Difference { histories, all_before: player.lines[..player.histories[first].lines.end].to_vec() }
}

/// The histories behind this one whose answers differ too, as far as the lines of the outputs lie side by side.
fn differing_too<'p>(player: &'p Player, output: &str, first: usize) -> impl Iterator<Item = &'p History> {
    let here: Vec<&str> = player.output.lines().collect();
    let there: Vec<&str> = output.lines().collect();
    let differ: Vec<bool> = player
        .histories
        .iter()
        .map(|history| {
            let (here, there) = (here.get(history.output.clone()), there.get(history.output.clone()));
            here.zip(there).is_some_and(|(here, there)| first_difference(&here.join("\n"), &there.join("\n")).is_some())
        })
        .collect();
    let lie_side_by_side = here.len() == there.len();
    player
        .histories
        .iter()
        .enumerate()
        .filter(move |(index, _)| lie_side_by_side && *index > first && differ[*index])
        .map(|(_, history)| history)
}

fn report(task: &Task, what: &What) {
    match what {
        What::Broken(reason) => println!("THE OTHER PROGRAM CANNOT BE RUN: {reason}"),
        What::Violation { history, reason } => {
            println!("VIOLATION in {}: {reason}", history.title);
            let shortest = shrink(&history.lines, &mut |lines| breaks_the_law(lines));
            println!("the shortest script found:\n{}", indented(&text(&shortest)));
            println!("its output:\n{}", indented(&script::run(&text(&shortest))));
        }
        What::Difference { histories, all_before } => {
            if let Some(other) = &task.other {
                report_difference(&other.for_single_histories(), histories, all_before);
            }
        }
    }
}

/// So many of the histories that differ are shrunk, the shortest first.
const TO_SHRINK: usize = 4;

fn report_difference(other: &OtherProgram, histories: &[Titled], all_before: &[String]) {
    println!("DIFFERENCE in {} histories of a batch, first in {}", histories.len(), histories[0].title);
    let differ = |lines: &[String]| {
        let script = text(lines);
        other.answer(&script).is_ok_and(|output| first_difference(&script::run(&script), &output).is_some())
    };
    let shortest = shortest_of(histories, &differ).unwrap_or_else(|| {
        println!("it does not come of one history alone, so all lines before it are kept where they are needed");
        shrink(all_before, &mut |lines| differ(lines))
    });
    let script = text(&shortest);
    println!("the shortest script found:\n{}", indented(&script));
    println!("this implementation:\n{}", indented(&script::run(&script)));
    match other.answer(&script) {
        Ok(output) => println!("the other program:\n{}", indented(&output)),
        Err(reason) => println!("the other program: {reason}"),
    }
}

fn shortest_of(histories: &[Titled], differ: &dyn Fn(&[String]) -> bool) -> Option<Vec<String>> {
    let mut candidates: Vec<&Titled> = histories.iter().collect();
    candidates.sort_by_key(|history| history.lines.len());
    candidates
        .into_iter()
        .filter(|history| differ(&history.lines))
        .take(TO_SHRINK)
        .map(|history| shrink(&history.lines, &mut |lines| differ(lines)))
        .min_by_key(Vec::len)
}

fn breaks_the_law(lines: &[String]) -> bool {
    let mut session = Session::new(());
    let mut output = String::new();
    lines.iter().any(|line| {
        session.answer(line, &mut output);
        session.pair().and_then(Pair::violation).is_some()
    })
}

fn text(lines: &[String]) -> String {
    let mut text = lines.join("\n");
    text.push('\n');
    text
}

fn indented(text: &str) -> String {
    text.lines().map(|line| format!("    {line}")).collect::<Vec<_>>().join("\n")
}
