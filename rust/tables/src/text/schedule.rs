//! A schedule as a text.

use super::line::Line;
use super::number::ACTOR;
use super::place::Mistake;

/// The schedule that `text` is: its entries, with spaces or a comma between two of them, as in a list
/// of a table's text. A mistake's column counts the characters of the whole text.
pub fn schedule(text: &str) -> Result<Vec<u8>, Mistake> {
    let entries = Line::whole(1, text).numbers(ACTOR, None)?;
    Ok(entries.into_iter().map(|(_, actor)| actor).collect())
}

#[cfg(test)]
mod tests {
    use super::schedule;

    #[test]
    fn spaces_and_commas() {
        assert_eq!(schedule(""), Ok(vec![]));
        assert_eq!(schedule(" \n"), Ok(vec![]));
        assert_eq!(schedule("0 1,0x7 , 255\n2"), Ok(vec![0, 1, 7, 255, 2]));
    }

    #[test]
    fn mistakes() {
        let wrong = |text| schedule(text).unwrap_err().to_string();
        let actor = "expected an actor's number";
        assert_eq!(wrong("0,"), format!("1:3: {actor}, the line ends here"));
        assert_eq!(wrong("0,,1"), format!("1:3: {actor}, found `,`"));
        assert_eq!(wrong(", 0"), format!("1:1: {actor}, found `,`"));
        assert_eq!(wrong("0 one"), format!("1:3: {actor}, found `one`"));
        assert_eq!(wrong("0\n#1"), format!("1:3: {actor}, found `#1`"));
        assert_eq!(
            wrong("1 256"),
            "1:3: `256` is too large for an actor's number: at most 255"
        );
    }
}
