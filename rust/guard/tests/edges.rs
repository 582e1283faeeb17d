//! Inside the slice all is as in other memory; a byte past its edge ends the program.

use guard::{Access, Edge, Region, report_faults, under_way};
use std::env;
use std::process::Command;

const DEED: &str = "GUARD_DEED";

#[test]
fn a_slice_holds_what_it_was_given() {
    let mut region = Region::default();
    let mut pairs = Region::default();
    for edge in [Edge::Begin, Edge::End] {
        for length in [0, 1, 44, 4_096, 4_097, 70_000] {
            let bytes: Vec<u8> = (0..length).map(|at| at as u8).collect();
            region.hold(&bytes, edge, Access::Read);
            assert_eq!(region.lent(), bytes);
            let numbers: Vec<u16> = (0..length).map(|at| (at as u16).wrapping_mul(3)).collect();
            pairs.hold(&numbers, edge, Access::Write);
            pairs.lent_mut().reverse();
            assert!(pairs.lent().iter().rev().eq(&numbers));
        }
    }
}

/// What a run of this test program by itself does, where the environment names it.
fn deed(name: &str) {
    report_faults();
    under_way("deed", 17);
    let mut region = Region::<u8>::default();
    let (edge, access) = match name {
        "read after the end" | "write after the end" => (Edge::End, Access::Write),
        "write what is to be read" => (Edge::End, Access::Read),
        _ => (Edge::Begin, Access::Write),
    };
    region.hold(&[1, 2, 3], edge, access);
    let first = region.lent().as_ptr().cast_mut();
    // SAFETY: none; the program has to end here.
    unsafe {
        match name {
            "read after the end" => println!("{}", first.add(3).read_volatile()),
            "write after the end" => first.add(3).write_volatile(0),
            "read before the begin" => println!("{}", first.sub(1).read_volatile()),
            _ => first.write_volatile(0),
        }
    }
}

#[test]
fn a_touch_outside_is_told() {
    if let Ok(name) = env::var(DEED) {
        return deed(&name);
    }
    for name in [
        "read after the end",
        "write after the end",
        "read before the begin",
        "write what is to be read",
    ] {
        let program = env::current_exe().expect("a test program has a path");
        let output = Command::new(program)
            .args(["a_touch_outside_is_told", "--exact", "--nocapture"])
            .env(DEED, name)
            .output()
            .expect("the test program runs");
        let said = String::from_utf8_lossy(&output.stderr);
        assert_eq!(output.status.code(), Some(1), "{name}");
        assert!(
            said.contains("was touched: deed, case 17"),
            "{name}: {said}"
        );
    }
}
