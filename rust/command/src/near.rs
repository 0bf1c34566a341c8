//! The word that was perhaps meant.

/// ` (did you mean X?)` where one word of a list is nearest to another and near enough, else nothing.
pub fn hint(word: &str, words: &[&str]) -> String {
    match near(word, words) {
        Some(meant) => format!(" (did you mean {meant}?)"),
        None => String::new(),
    }
}

/// The nearest word of a list, if it is near and no other is as near. What begins a word is near to
/// it, from three letters on.
fn near<'a>(word: &str, words: &[&'a str]) -> Option<&'a str> {
    // What is longer than any word of ours is near to none.
    let written: Vec<char> = word.to_lowercase().chars().take(60).collect();
    let distance = |other: &str| {
        let other = other.to_lowercase();
        let begins = written.len() > 2 && other.starts_with(&word.to_lowercase());
        match begins {
            true => 0,
            false => steps(&written, &other.chars().collect::<Vec<char>>()),
        }
    };
    let nearest = words.iter().map(|w| distance(w)).min()?;
    let mut meant = words.iter().filter(|w| distance(w) == nearest);
    let only = meant.next().filter(|_| meant.next().is_none());
    only.filter(|_| nearest <= (written.len() + 1) / 3).copied()
}

/// How many letters have to be put in, left out, changed or swapped with the next to get from one
/// word to another.
fn steps(from: &[char], to: &[char]) -> usize {
    let (mut before, mut last): (Vec<usize>, Vec<usize>) = (Vec::new(), (0..=to.len()).collect());
    for i in 0..from.len() {
        let row = row(&from[..=i], to, &before, &last);
        before = std::mem::replace(&mut last, row);
    }
    last[to.len()]
}

/// The steps from a word to each beginning of another, where they are known for the word without its
/// last letter and without its last two.
fn row(from: &[char], to: &[char], before: &[usize], last: &[usize]) -> Vec<usize> {
    let mut row = vec![from.len()];
    for (j, letter) in to.iter().enumerate() {
        let changed = last[j] + usize::from(from.last() != Some(letter));
        let swapped = j > 0 && from.ends_with(&[*letter, to[j - 1]]);
        let swapped = swapped.then(|| before[j - 1] + 1);
        let other = (last[j + 1] + 1).min(row[j] + 1);
        row.push(changed.min(other).min(swapped.unwrap_or(changed)));
    }
    row
}

#[cfg(test)]
mod tests {
    use super::*;

    #[test]
    fn steps_between_words() {
        let steps = |a: &str, b: &str| {
            let letters = |word: &str| word.chars().collect::<Vec<char>>();
            steps(&letters(a), &letters(b))
        };
        for (a, b, count) in [
            ("", "", 0),
            ("", "abc", 3),
            ("hour", "hour", 0),
            ("huor", "hour", 1),
            ("hors", "hours", 1),
            ("level", "labels", 3),
        ] {
            assert_eq!((steps(a, b), steps(b, a)), (count, count), "{a} {b}");
        }
    }

    #[test]
    fn near_and_far() {
        let words = ["fuel", "emission", "RS", "RQ", "TH", "no-load"];
        for (word, meant) in [
            ("feul", Some("fuel")),
            ("Emision", Some("emission")),
            ("emi", Some("emission")),
            ("rs", Some("RS")),
            ("RX", None),
            ("noload", Some("no-load")),
            ("something", None),
            ("", None),
        ] {
            assert_eq!(near(word, &words), meant, "{word}");
        }
    }
}
