//! Compares two outputs line by line. Of a line that tells what is wrong only the number counts.

/// The first line in which they differ, counted from 0.
pub fn first_difference(one: &str, another: &str) -> Option<usize> {
    if one == another {
        return None;
    }
    let (mut ones, mut others) = (one.split('\n'), another.split('\n'));
    let mut line = 0;
    loop {
        match (ones.next(), others.next()) {
            (None, None) => return None,
            (Some(one), Some(another)) if are_alike(one, another) => line += 1,
            _ => return Some(line),
        }
    }
}

fn are_alike(one: &str, another: &str) -> bool {
    one == another || matches!((wrong_line(one), wrong_line(another)), (Some(one), Some(another)) if one == another)
}

/// `line N: ` of a line that tells what is wrong.
fn wrong_line(line: &str) -> Option<&str> {
    let digits = line.strip_prefix("line ")?;
    let end = digits.find(|character: char| !character.is_ascii_digit())?;
    (end > 0 && digits[end..].starts_with(": ")).then(|| &line[.."line ".len() + end])
}

#[cfg(test)]
mod tests {
    use super::*;

    #[test]
    fn reasons_do_not_count_and_all_else_does() {
        assert_eq!(first_difference("a\nline 2: x\n", "a\nline 2: y\n"), None);
        assert_eq!(first_difference("a\nline 2: x\n", "a\nline 3: x\n"), Some(1));
        assert_eq!(first_difference("a\nb\n", "a\n"), Some(1));
        assert_eq!(first_difference("a\n", "a"), Some(1));
        assert_eq!(first_difference("line 2: x\n", "refused 11\n"), Some(0));
    }
}
