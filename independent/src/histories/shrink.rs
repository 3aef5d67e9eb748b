//! Drops lines of a script, and makes those that are left simpler, while something remains true of it.

/// The shortest script found of which it is still true; it has to be true of the whole.
pub fn shrink(script: &[String], is_still_true: &mut dyn FnMut(&[String]) -> bool) -> Vec<String> {
    let mut lines = fewer_lines(script, is_still_true);
    while simplify_a_line(&mut lines, is_still_true) {
        lines = fewer_lines(&lines, is_still_true);
    }
    lines
}

/// Whether a line could be made simpler.
fn simplify_a_line(lines: &mut [String], is_still_true: &mut dyn FnMut(&[String]) -> bool) -> bool {
    for place in 0..lines.len() {
        for simpler in simpler_lines(&lines[place]) {
            let before = std::mem::replace(&mut lines[place], simpler);
            if is_still_true(lines) {
                return true;
            }
            lines[place] = before;
        }
    }
    false
}

/// Fewer markers, fewer letters of a trace, fewer rounds.
fn simpler_lines(line: &str) -> Vec<String> {
    let words: Vec<&str> = line.split_whitespace().collect();
    let mut simpler = Vec::new();
    if let Some(marker) = words.iter().rposition(|word| *word == "marker") {
        let mut without = words.clone();
        without.remove(marker);
        simpler.push(without.join(" "));
    }
    if let Some(trace) = words.iter().position(|word| *word == "trace")
        && let Some(fates) = words.get(trace + 2).filter(|fates| fates.is_ascii() && **fates != "-")
    {
        simpler.extend(fewer_letters(fates).map(|fewer| with_word(&words, trace + 2, &fewer)));
    }
    if let ["round", times, ..] = words.as_slice()
        && let Ok(times) = times.parse::<u32>()
    {
        simpler.extend(
            [1, times / 2, times.saturating_sub(1)]
                .into_iter()
                .filter(|fewer| (1..times).contains(fewer))
                .map(|fewer| with_word(&words, 1, &fewer.to_string())),
        );
    }
    simpler
}

/// None, the first half, and without one of them.
fn fewer_letters(fates: &str) -> impl Iterator<Item = String> {
    let without_one = (0..fates.len()).map(|place| [&fates[..place], &fates[place + 1..]].concat());
    [String::new(), fates[..fates.len() / 2].to_string()]
        .into_iter()
        .chain(without_one)
        .map(|fewer| if fewer.is_empty() { "-".to_string() } else { fewer })
}

fn with_word(words: &[&str], place: usize, word: &str) -> String {
    let mut changed = words.to_vec();
    changed[place] = word;
    changed.join(" ")
}

/// Without chunks of lines, down to single ones and pairs.
fn fewer_lines(script: &[String], is_still_true: &mut dyn FnMut(&[String]) -> bool) -> Vec<String> {
    let mut lines = script.to_vec();
    let mut chunk = lines.len().div_ceil(2).max(1);
    loop {
        let before = lines.len();
        lines = without_chunks(lines, chunk, is_still_true);
        if chunk > 1 {
            chunk = chunk.div_ceil(2);
        } else if lines.len() == before {
            match without_a_pair(&lines, is_still_true) {
                Some(fewer) => lines = fewer,
                None => return lines,
            }
        }
    }
}

/// So many lines are few enough to try all pairs of them.
const FEW: usize = 60;

/// The lines without two of them that are needed only for one another.
fn without_a_pair(lines: &[String], is_still_true: &mut dyn FnMut(&[String]) -> bool) -> Option<Vec<String>> {
    if lines.len() > FEW {
        return None;
    }
    for second in (1..lines.len()).rev() {
        for first in (0..second).rev() {
            let mut fewer = lines.to_vec();
            fewer.remove(second);
            fewer.remove(first);
            if is_still_true(&fewer) {
                return Some(fewer);
            }
        }
    }
    None
}

/// Goes through the lines from behind and leaves out each chunk that is not needed.
fn without_chunks(
    mut lines: Vec<String>,
    chunk: usize,
    is_still_true: &mut dyn FnMut(&[String]) -> bool,
) -> Vec<String> {
    let mut end = lines.len();
    while end > 0 {
        let start = end.saturating_sub(chunk);
        let mut fewer = lines[..start].to_vec();
        fewer.extend_from_slice(&lines[end..]);
        if is_still_true(&fewer) {
            lines = fewer;
        }
        end = start;
    }
    lines
}

#[cfg(test)]
mod tests {
    use super::*;

    #[test]
    fn only_what_is_needed_is_left() {
        let script: Vec<String> = (0..100).map(|number| number.to_string()).collect();
        let needed = ["3".to_string(), "57".to_string(), "58".to_string()];
        let mut runs = 0;
        let left = shrink(&script, &mut |lines| {
            runs += 1;
            needed.iter().all(|line| lines.contains(line))
        });
        assert_eq!(left, needed);
        assert!(runs < 200);
    }

    #[test]
    fn lines_become_simpler() {
        let script: Vec<String> = ["channel trace 40 ppl2j marker marker", "round 8 55"].map(str::to_string).to_vec();
        let left = shrink(&script, &mut |lines| lines.iter().any(|line| line.contains("trace") && line.contains('2')));
        assert_eq!(left, ["channel trace 40 2"]);
        let left = shrink(&script, &mut |lines| lines.iter().any(|line| line.starts_with("round")));
        assert_eq!(left, ["round 1 55"]);
    }

    #[test]
    fn two_lines_that_need_one_another_go_together() {
        let script: Vec<String> = ["a", "open", "b", "close", "c"].map(str::to_string).to_vec();
        let left = shrink(&script, &mut |lines| {
            let has = |line: &str| lines.iter().any(|there| there == line);
            has("b") && has("open") == has("close")
        });
        assert_eq!(left, ["b"]);
    }
}
