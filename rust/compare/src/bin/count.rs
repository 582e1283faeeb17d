//! Every measurement of the benchmark once, for a tool that counts instructions and gives its count
//! up after each function whose name begins with `measured_`: what lies between a `measured_begin`
//! and the `measured_part` after it is counted, first for the proved engine, then for the reference.

use compare::calls::measure_all;
use compare::workload::{Load, Measure, Work, loads};
use std::hint::black_box;

struct Count;

impl Measure for Count {
    fn measure(
        &mut self,
        _call: &'static str,
        load: &Load,
        mut engine: impl FnMut(&Work) -> usize,
        mut reference: impl FnMut(&Work) -> usize,
    ) {
        measured_begin(load);
        measured_part(load, &mut engine);
        measured_begin(load);
        measured_part(load, &mut reference);
    }
}

/// Does nothing.
#[inline(never)]
fn measured_begin(load: &Load) {
    black_box(load.name);
}

/// Goes through a load once.
#[inline(never)]
fn measured_part(load: &Load, call: &mut dyn FnMut(&Work) -> usize) {
    for work in &load.works {
        black_box(call(black_box(work)));
    }
}

fn main() {
    measure_all(&mut Count, &loads());
}
