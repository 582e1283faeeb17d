//! The bytes of a text.

use super::place::{Mistake, Place};

/// The byte order mark that some editors write before a text.
const MARK: char = '\u{feff}';

/// The text of these bytes, without a byte order mark.
pub fn decode(bytes: &[u8]) -> Result<&str, Mistake> {
    str::from_utf8(bytes).map(bare).map_err(|error| {
        let valid = String::from_utf8_lossy(&bytes[..error.valid_up_to()]);
        let place = Place::end_of(bare(&valid));
        Mistake::new(place, "expected a text, found bytes that are not UTF-8")
    })
}

/// Whether the bytes begin as a table's text does: with a comment or with the number of actors.
pub fn looks_like_text(bytes: &[u8]) -> bool {
    let text = String::from_utf8_lossy(bytes);
    let first = bare(&text).trim_start();
    first.starts_with('#') || first.starts_with("actors")
}

fn bare(text: &str) -> &str {
    text.strip_prefix(MARK).unwrap_or(text)
}

#[cfg(test)]
mod tests {
    use super::{decode, looks_like_text};
    use crate::TABLE_A;

    #[test]
    fn one_mark_is_skipped() {
        assert_eq!(decode(b"actors 1"), Ok("actors 1"));
        assert_eq!(decode(b"\xEF\xBB\xBFactors 1"), Ok("actors 1"));
        assert_eq!(decode("\u{feff}\u{feff}".as_bytes()), Ok("\u{feff}"));
        assert_eq!(decode(b"a\xEF\xBB\xBF"), Ok("a\u{feff}"));
    }

    #[test]
    fn bytes_that_are_no_text() {
        let words = "expected a text, found bytes that are not UTF-8";
        let places = [
            b"\xFF".as_slice(),
            b"\xEF\xBB\xBFab\xFF",
            b"ab\n\xC3\xA9\xFF",
        ];
        let shown = places.map(|bytes| decode(bytes).unwrap_err().to_string());
        assert_eq!(
            shown,
            ["1:1", "1:3", "2:2"].map(|at| format!("{at}: {words}"))
        );
    }

    #[test]
    fn texts_and_tables() {
        for text in ["actors 2", "\n\t# a site\nactors", "#", "\u{feff} actors"] {
            assert!(looks_like_text(text.as_bytes()), "{text}");
        }
        assert!(looks_like_text(b"# \xFF"));
        for bytes in [b"".as_slice(), &TABLE_A, b"actor 0", b"\x02actors"] {
            assert!(!looks_like_text(bytes), "{bytes:?}");
        }
    }
}
