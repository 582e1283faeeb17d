//! The pair that the wrapper names against the reference's steps, on many schedules.

use compare::calls::orders::{names, opposed, same_steps};
use compare::inputs::recordings;
use compare::inputs::rng::Rng;
use order_engine::{StepName, prefix, same};
use reference::pair::dependent;
use reference::{Name, check};

fn step(name: Name) -> StepName {
    let [actor, action] = name.bytes();
    StepName::new(actor, action)
}

#[test]
fn the_wrapper_names_the_first_pair_in_opposite_orders() {
    let mut rng = Rng::new(8);
    let (mut named, mut late) = (0, 0);
    for _ in 0..6_000 {
        let [table, mut first, mut second] = recordings::any(&mut rng).slices();
        let Ok(answer) = prefix(&table, &first, &second) else {
            continue;
        };
        let cut = first.len().min(second.len());
        first.truncate(cut);
        second.truncate(cut);
        assert_eq!(same(&table, &first, &second), Ok(answer));
        let checked = check(&table).expect("the call was accepted");
        let [one, other] = [&first, &second].map(|schedule| names(&checked, schedule));
        let ended = match same_steps(&one, &other) {
            true => opposed(&one, &other).find(|&(i, j)| dependent(&checked, i, j)),
            false => None,
        };
        let wanted = ended.map(|(earlier, later)| [step(earlier), step(later)]);
        assert_eq!(answer.opposed, wanted);
        let entries = answer.entries().map(|(i, j)| (one[i], one[j]));
        assert_eq!(entries, ended);
        named += usize::from(ended.is_some());
        late += usize::from(answer.entries().is_some_and(|(_, j)| j > 100));
    }
    assert!(named > 500 && late > 5, "{named} {late}");
}
