//! Names that were meant, and numbers with their nouns.

/// How many letters must be changed, left out, put in or exchanged with their neighbour.
fn distance(a: &str, b: &str) -> usize {
    let (a, b): (Vec<char>, Vec<char>) = (a.chars().collect(), b.chars().collect());
    let mut rows: Vec<Vec<usize>> = vec![(0..=b.len()).collect()];
    for i in 1..=a.len() {
        let mut row = vec![i];
        for j in 1..=b.len() {
            let same = usize::from(a[i - 1] != b[j - 1]);
            let mut least = (rows[i - 1][j] + 1).min(row[j - 1] + 1).min(rows[i - 1][j - 1] + same);
            if i > 1 && j > 1 && a[i - 1] == b[j - 2] && a[i - 2] == b[j - 1] {
                least = least.min(rows[i - 2][j - 2] + 1);
            }
            row.push(least);
        }
        rows.push(row);
    }
    rows[a.len()][b.len()]
}

/// The name that was meant, if one is near: it differs by capitals, by one letter, or by two in a long word.
pub fn nearest<'a>(word: &str, names: impl IntoIterator<Item = &'a str>) -> Option<&'a str> {
    let length = word.chars().count();
    if length > 64 {
        return None;
    }
    let allowed = if length >= 6 { 2 } else { usize::from(length >= 3) };
    let far = |name: &str| if name.to_lowercase() == word.to_lowercase() { 0 } else { distance(word, name) };
    // Names of another length by far are not compared: they could be very long.
    let near = |name: &&str| *name != word && name.len() <= 4 * (length + 2) && name.chars().count().abs_diff(length) <= 2;
    let all = names.into_iter().filter(near).map(|name| (far(name), name));
    all.filter(|(far, _)| *far <= allowed).min_by_key(|(far, _)| *far).map(|(_, name)| name)
}

/// `; did you mean `name`?`, or nothing.
pub fn hint<'a>(word: &str, names: impl IntoIterator<Item = &'a str>) -> String {
    nearest(word, names).map_or(String::new(), |name| format!("; did you mean `{name}`?"))
}

/// A number in groups of three digits.
pub fn grouped(n: u64) -> String {
    let digits = n.to_string();
    let mut text = String::new();
    for (i, digit) in digits.chars().enumerate() {
        if i > 0 && (digits.len() - i) % 3 == 0 {
            text.push(',');
        }
        text.push(digit);
    }
    text
}

/// A number with its noun: `1 token`, `2 tokens`.
pub fn counted(n: usize, noun: &str) -> String {
    let ending = if n == 1 { "" } else { "s" };
    format!("{} {noun}{ending}", grouped(n as u64))
}

#[cfg(test)]
mod tests {
    use super::*;

    #[test]
    fn near_names() {
        let names = ["word", "open", "close", "warrants"];
        for (word, meant) in
            [("wrod", "word"), ("wurd", "word"), ("Word", "word"), ("OPEN", "open"), ("warants", "warrants"), ("clsoe", "close")]
        {
            assert_eq!(nearest(word, names), Some(meant), "{word}");
        }
        for word in ["w", "xyz", "ward_robe", "", "opened_up"] {
            assert_eq!(nearest(word, names), None, "{word}");
        }
    }

    #[test]
    fn numbers() {
        assert_eq!(
            (grouped(0), grouped(999), grouped(1000), grouped(4294967295)),
            ("0".into(), "999".into(), "1,000".into(), "4,294,967,295".into())
        );
        assert_eq!((counted(1, "token"), counted(1021, "word")), ("1 token".into(), "1,021 words".into()));
    }
}
