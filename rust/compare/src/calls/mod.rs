//! The calls, a module for each: how its two engines are compared, and what is measured of it. Those that
//! step schedules share [`totals`], [`notes`] and [`locks`], those that compare two of them [`orders`] and
//! [`compared`], those that take recordings [`lengths`], those that want a fixed room lent [`room`].

pub mod compared;
pub mod lengths;
pub mod locks;
pub mod notes;
pub mod orders;
pub mod room;
pub mod totals;

use crate::harness::call::Call;
use crate::workload::{Load, Measure};

macro_rules! calls {
    ($($call:ident)*; $($unmeasured:ident)*; $($more:path)*) => {
        $(pub mod $call;)*
        $(pub mod $unmeasured;)*

        /// The calls.
        pub static ALL: &[Call] = &[$($call::CALL,)* $($unmeasured::CALL,)*];

        /// Measures every call on every load, but for those that only look at lengths; then what else is
        /// measured of them.
        pub fn measure_all(measure: &mut impl Measure, loads: &[Load]) {
            $(
                for load in loads {
                    $call::measure(measure, load);
                }
            )*
            $(
                for load in loads {
                    $more(measure, load);
                }
            )*
        }
    };
}

calls! {
    check run ready page draw pair same prefix route;
    remainder;
    same::differing::two_runs same::differing::early same::differing::late
}
