//! Words of a text, as a mistake shows them.

/// A word of more characters is not shown whole.
const LONG: usize = 32;

/// The word in quotes: its first characters, if it is long, and none that does not print.
pub fn quoted(word: &str) -> String {
    let mut shown: String = word
        .chars()
        .take(LONG)
        .flat_map(char::escape_debug)
        .collect();
    if word.chars().nth(LONG).is_some() {
        shown += "..";
    }
    format!("`{shown}`")
}

#[cfg(test)]
mod tests {
    use super::quoted;

    #[test]
    fn words_in_quotes() {
        assert_eq!(quoted("s\u{e9}nd"), "`s\u{e9}nd`");
        assert_eq!(quoted("\0\u{1b}[m"), "`\\0\\u{1b}[m`");
        assert_eq!(quoted(&"9".repeat(32)), format!("`{}`", "9".repeat(32)));
        assert_eq!(quoted(&"9".repeat(33)), format!("`{}..`", "9".repeat(32)));
    }
}
