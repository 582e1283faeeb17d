//! Short comparisons, for `cargo test`.

use compare::calls;
use compare::harness::sides::compare;

#[test]
fn the_engines_agree() {
    for call in calls::ALL {
        if let Err(difference) = compare(call, 1, call.cases / 12) {
            panic!("{difference}");
        }
    }
}
