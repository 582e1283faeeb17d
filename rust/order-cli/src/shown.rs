//! The names of files and other arguments, as messages show them.

use std::ffi::OsStr;

/// The name in a message: what a terminal would act on is escaped, and so are bytes that are no text.
pub fn shown(name: impl AsRef<OsStr>) -> String {
    let mut words = String::new();
    for part in name.as_ref().as_encoded_bytes().utf8_chunks() {
        for sign in part.valid().chars() {
            match is_acted_on(sign) {
                true => words.extend(sign.escape_default()),
                false => words.push(sign),
            }
        }
        let bytes = part.invalid().iter();
        words.extend(bytes.map(|byte| format!("\\x{byte:02X}")));
    }
    match words.is_empty() {
        true => "''".to_owned(),
        false => words,
    }
}

/// Control characters, separators of lines, and marks that turn the direction of writing.
fn is_acted_on(sign: char) -> bool {
    let turns = ['\u{61C}', '\u{200E}', '\u{200F}'].contains(&sign)
        || ('\u{202A}'..='\u{202E}').contains(&sign)
        || ('\u{2066}'..='\u{2069}').contains(&sign);
    sign.is_control() || turns || ['\u{2028}', '\u{2029}'].contains(&sign)
}

#[cfg(test)]
mod tests {
    use super::shown;
    use std::ffi::OsStr;
    use std::os::unix::ffi::OsStrExt;

    #[test]
    fn names() {
        for (name, words) in [
            ("a b/it's.tab", "a b/it's.tab"),
            ("s\u{e9}nd\\n", "s\u{e9}nd\\n"),
            ("a\nb\tc\r", "a\\nb\\tc\\r"),
            ("\u{1b}[31m\u{7}\u{7f}", "\\u{1b}[31m\\u{7}\\u{7f}"),
            ("\u{9b}31m", "\\u{9b}31m"),
            (
                "a\u{202e}b\u{2066}\u{200f}",
                "a\\u{202e}b\\u{2066}\\u{200f}",
            ),
            ("a\u{2028}b", "a\\u{2028}b"),
            ("", "''"),
        ] {
            assert_eq!(shown(name), words);
        }
        assert_eq!(shown(OsStr::from_bytes(b"a\xFFb\xC3")), "a\\xFFb\\xC3");
    }
}
