//! The word that was meant.

/// The word of a list that differs least from one that was written, if it differs little.
pub fn nearest<'a>(written: &str, words: impl IntoIterator<Item = &'a str>) -> Option<&'a str> {
    let written = written.to_lowercase();
    let most = if written.chars().count() <= 4 { 1 } else { 2 };
    let ranked = words.into_iter().map(|word| (distance(&written, word), word));
    ranked.filter(|&(distance, word)| distance <= most && distance < word.len()).min().map(|(_, word)| word)
}

/// The same as a question behind the word; nothing where there is none.
pub fn question<'a>(written: &str, words: impl IntoIterator<Item = &'a str>) -> String {
    nearest(written, words).map(|word| format!(" (did you mean {word}?)")).unwrap_or_default()
}

/// How many letters have to be added, left out, changed or swapped with the next.
fn distance(a: &str, b: &str) -> usize {
    let (a, b): (Vec<char>, Vec<char>) = (a.chars().take(64).collect(), b.chars().collect());
    let mut rows: Vec<Vec<usize>> = vec![(0..=b.len()).collect()];
    for i in 1..=a.len() {
        let mut row = vec![i];
        for j in 1..=b.len() {
            let change = rows[i - 1][j - 1] + usize::from(a[i - 1] != b[j - 1]);
            let mut best = change.min(rows[i - 1][j] + 1).min(row[j - 1] + 1);
            if i > 1 && j > 1 && a[i - 1] == b[j - 2] && a[i - 2] == b[j - 1] {
                best = best.min(rows[i - 2][j - 2] + 1);
            }
            row.push(best);
        }
        rows.push(row);
    }
    rows[a.len()][b.len()]
}

#[cfg(test)]
mod tests {
    use super::*;

    #[test]
    fn slips_are_seen() {
        let words = ["new", "run", "table", "heat", "bus", "demo", "take", "take-bus", "swap-card"];
        for (written, meant) in [
            ("nwe", Some("new")),
            ("NEW", Some("new")),
            ("tabel", Some("table")),
            ("swapcard", Some("swap-card")),
            ("rn", Some("run")),
            ("takebus", Some("take-bus")),
            ("bsu", Some("bus")),
            ("haet", Some("heat")),
            ("sell", None),
            ("x", None),
            ("", None),
        ] {
            assert_eq!(nearest(written, words), meant, "{written}");
        }
        assert_eq!(question("nwe", words), " (did you mean new?)");
        assert_eq!(question("reboot", words), "");
    }
}
