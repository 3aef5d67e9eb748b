//! The tour of all commands of messages, books and channels, with the answers that are told of it.

use independent::script;

const SCRIPT: &str = include_str!("tour.script");
const OUTPUT: &str = include_str!("tour.output");

/// Texts behind `line N:` are free.
fn without_reasons(text: &str) -> Vec<&str> {
    text.lines().map(reason_cut_off).collect()
}

fn reason_cut_off(line: &str) -> &str {
    match line.strip_prefix("line ").and_then(|rest| rest.find(':')) {
        Some(colon) => &line[.."line ".len() + colon],
        None => line,
    }
}

#[test]
fn the_tour_is_answered_as_told() {
    // Help is free too: its lines end with the one about comments.
    let script = SCRIPT.replacen("\nhelp\n", "\n\n", 1);
    let help_ends = OUTPUT.find("# starts a comment\n").unwrap() + "# starts a comment\n".len();
    let output = script::run(&script);
    assert_eq!(without_reasons(&output), without_reasons(&OUTPUT[help_ends..]));
}
