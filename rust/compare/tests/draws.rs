//! The draw made for speed against the plain one, on tables of every family.

use compare::inputs::rng::Rng;
use compare::inputs::{seeds, sites};
use reference::{SCHEDULE_MOST, draw, quick};

#[test]
fn the_quick_draw_is_the_plain_one() {
    let mut rng = Rng::new(6);
    let mut drawn = 0;
    for _ in 0..4_000 {
        let (table, seed) = (sites::any(&mut rng), seeds::any(&mut rng));
        let (mut plain, mut quickly) = ([7; SCHEDULE_MOST], [7; SCHEDULE_MOST]);
        let answer = draw(&table, seed, &mut plain);
        assert_eq!(quick::draw(&table, seed, &mut quickly), answer);
        assert_eq!(quickly, plain);
        drawn += usize::from(answer.is_ok_and(|length| length > 0));
    }
    assert!(drawn > 2_000, "{drawn}");
}
