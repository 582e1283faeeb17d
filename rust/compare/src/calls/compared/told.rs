//! What the number of pairs tells, looked for by another way than the reference's count: among the pairs in
//! opposite orders.

use crate::calls::orders::{names, opposed, same_steps};
use reference::check;
use reference::pair::dependent;
use reference::route::room;

/// What is wrong with an accepted answer about these schedules, if anything: its number tells the first
/// dependent pair in opposite orders; with "same" there is none, and all pairs were compared; it is 0 for
/// other steps.
pub fn wrong(verdict: u32, number: u32, [table, first, second]: [&[u8]; 3]) -> Option<String> {
    let table = check(table).expect("the table is accepted");
    let [first, second] = [first, second].map(|schedule| names(&table, schedule));
    if !same_steps(&first, &second) {
        let right = (verdict, number) == (0, 0);
        return (!right).then(|| "pairs of other steps were compared".to_string());
    }
    let mut pairs = opposed(&first, &second);
    let ended = pairs.find(|&(one, other)| dependent(&table, one, other));
    let told = match (verdict, number as usize) {
        (1, all) if all == room(first.len()) => None,
        (0, 1..) => {
            let (i, j) = entries(number as usize);
            first.get(j).map(|&later| (first[i], later))
        }
        _ => return Some("verdict and number do not go together".to_string()),
    };
    (told != ended).then(|| format!("the number tells {told:?}, the search ends at {ended:?}"))
}

/// The entries i < j of the pair with a number, counted off.
fn entries(number: usize) -> (usize, usize) {
    let (mut i, mut j) = (number - 1, 1);
    while i >= j {
        i -= j;
        j += 1;
    }
    (i, j)
}

#[cfg(test)]
mod tests {
    use super::wrong;
    use tables::Layout;
    use tables::action::send;

    #[test]
    fn a_number_that_tells_another_pair() {
        let sender = [send(0, 0)];
        let table = Layout::new(1, 0, &[&sender[..]; 4]).bytes();
        let said = |verdict, number, second: &[u8]| {
            let said = wrong(verdict, number, [&table, &[0, 1, 2], second]);
            said.unwrap_or_default()
        };
        assert_eq!(said(0, 2, &[2, 0, 1]), "");
        for number in [1, 3, 4, 5, 400] {
            assert!(said(0, number, &[2, 0, 1]).starts_with("the number tells"));
        }
        assert_eq!(said(1, 3, &[0, 1, 2]), "");
        assert!(said(1, 3, &[0, 2, 1]).starts_with("the number tells None"));
        for (verdict, number) in [(1, 0), (1, 2), (1, 4), (0, 0)] {
            let said = said(verdict, number, &[0, 1, 2]);
            assert_eq!(said, "verdict and number do not go together");
        }
        for second in [&[1, 0, 3][..], &[1, 0], &[0, 1, 2, 3]] {
            assert_eq!(said(0, 0, second), "");
            assert_eq!(said(0, 1, second), "pairs of other steps were compared");
        }
    }
}
