//! What the last word of a command line can be completed to.

use std::fs;
use std::path::Path;

use crate::help;

/// So many names of a folder are looked at.
const MOST_NAMES: usize = 10_000;

/// The words that the last one, which may be empty, begins.
pub fn words(line: &str) -> Vec<String> {
    let (before, word) = line.rsplit_once(char::is_whitespace).unwrap_or(("", line));
    let before: Vec<&str> = before.split_whitespace().collect();
    let of = |list: &[&str]| -> Vec<String> {
        list.iter().filter(|known| known.starts_with(word)).map(|known| known.to_string()).collect()
    };
    match before[..] {
        [] | ["help"] => of(&help::names()),
        [name] if word.starts_with('-') => of(help::options(name)),
        ["take", .., "--csv"] | ["take-bus", .., "--file"] | ["table", "--plain"] => paths(word, false),
        ["swap-card"] | ["copy-card"] | ["swap-card", "--new"] => paths(word, true),
        ["cut"] => of(&["before", "after", "during"]),
        [name @ ("take" | "take-bus"), ..] if word.starts_with('-') => of(help::options(name)),
        _ => Vec::new(),
    }
}

/// The names in a folder that a path begins, folders alone or all, in order. Names that cannot be typed in a command are left out.
fn paths(word: &str, folders: bool) -> Vec<String> {
    let (folder, start) = word.rsplit_once('/').map_or(("", word), |(folder, start)| (&word[..=folder.len()], start));
    let place = if folder.is_empty() { Path::new(".") } else { Path::new(folder) };
    let Ok(entries) = fs::read_dir(place) else { return Vec::new() };
    let mut found = Vec::new();
    for entry in entries.take(MOST_NAMES).flatten() {
        let Ok(name) = entry.file_name().into_string() else { continue };
        let hidden = name.starts_with('.') && !start.starts_with('.');
        let odd = name.contains(|c: char| c.is_whitespace() || c.is_control())
            || (folder.is_empty() && name.starts_with('-'));
        if hidden || odd || !name.starts_with(start) {
            continue;
        }
        let is_folder = fs::metadata(entry.path()).is_ok_and(|found| found.is_dir());
        if is_folder {
            found.push(format!("{folder}{name}/"));
        } else if !folders {
            found.push(format!("{folder}{name}"));
        }
    }
    found.sort();
    found
}

#[cfg(test)]
mod tests {
    use super::*;

    #[test]
    fn commands_options_and_paths() {
        assert_eq!(words("sta"), ["start", "status"]);
        assert_eq!(words("help ti"), ["tidy"]);
        assert_eq!(words("take --n"), ["--no-tidy"]);
        assert_eq!(words("take --no-tidy --c"), ["--csv"]);
        assert_eq!(words("cut b"), ["before"]);
        assert_eq!(words("cut d"), ["during"]);
        assert_eq!(words("take-"), ["take-bus"]);
        assert_eq!(words("take-bus 0 5 now --f"), ["--file"]);
        assert_eq!(words("take-bus 0 5 now --file /dev/nul"), ["/dev/null"]);
        assert!(words("take-bus 0 5 now 6").is_empty());
        assert_eq!(words("table -"), ["--csv", "--plain"]);
        assert_eq!(words("table --plain /dev/nul"), ["/dev/null"]);
        assert!(words("table --csv ").is_empty());
        assert!(words("start x").is_empty() && words("nothing").is_empty());
        assert_eq!(words("take --csv /dev/nul"), ["/dev/null"]);
        assert_eq!(words("swap-card /de"), ["/dev/"]);
        assert!(words("copy-card /dev/nul").is_empty() && words("copy-card /no/such/folder/x").is_empty());
    }
}
