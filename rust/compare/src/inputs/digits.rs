//! Tables whose cells come to hold numbers of every length, with a schedule: inputs for the page.

use crate::inputs::mix::Mix;
use crate::inputs::rng::Rng;
use crate::inputs::sample::{Sample, Script, Shape};
use crate::inputs::steps::Steps;
use crate::inputs::walk::accepted;
use reference::check;
use tables::action;
use tables::layout::CELLS;

/// The most digits of a number of 32 bits.
pub const MOST_DIGITS: u32 = 10;

/// The least and the greatest number with so many digits.
pub fn ends(digits: u32) -> [u32; 2] {
    let least = match digits {
        1 => 0,
        _ => 10_u32.pow(digits - 1),
    };
    let greatest = 10_u32.checked_pow(digits).map_or(u32::MAX, |next| next - 1);
    [least, greatest]
}

/// A table of any shape in which every second action is a Set, and an accepted schedule, full or cut.
pub fn steps(rng: &mut Rng) -> Steps {
    let shape = Shape::any(rng);
    let mut scripts = vec![Script::default(); shape.counts.len()];
    for (script, &count) in scripts.iter_mut().zip(&shape.counts) {
        while script.actions().len() < count {
            let next = match rng.once_in(2) {
                true => action::set(rng.below(usize::from(CELLS)) as u8, number(rng)),
                false => script.draw(rng, &shape, &Mix::CONTENDED),
            };
            script.push(next);
        }
    }
    let table = Sample::of_scripts(shape, scripts).bytes;
    let checked = check(&table).expect("the table is right");
    let schedule = accepted(rng, &checked, None);
    Steps { table, schedule }
}

/// A number, of any number of digits equally often; every third is the least or the greatest of its
/// length.
fn number(rng: &mut Rng) -> u32 {
    let [least, greatest] = ends(rng.between(1, MOST_DIGITS as usize) as u32);
    match rng.once_in(3) {
        true => rng.pick(&[least, greatest]),
        false => rng.between(least as usize, greatest as usize) as u32,
    }
}

#[cfg(test)]
mod tests {
    use super::{MOST_DIGITS, ends};

    #[test]
    fn one_length_follows_the_other() {
        assert_eq!(ends(1), [0, 9]);
        for digits in 2..=MOST_DIGITS {
            let [least, greatest] = ends(digits);
            assert_eq!(least, ends(digits - 1)[1] + 1);
            for end in [least, greatest] {
                assert_eq!(end.to_string().len(), digits as usize);
            }
        }
        assert_eq!(ends(MOST_DIGITS)[1], u32::MAX);
    }
}
