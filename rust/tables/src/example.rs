//! The specification's example.

/// Table A: actor 0 sets 149 and sends it; actor 1 receives into cell 2 and waits for that, with the
/// result in cell 3.
pub const TABLE_A: [u8; 44] = [
    1, 2, 1, 0, //
    12, 0, 2, 0, 28, 0, 2, 0, //
    0, 0, 0, 0, 0x95, 0, 0, 0, //
    3, 0, 0, 0, 0, 0, 0, 0, //
    4, 0, 2, 0, 0, 0, 0, 0, //
    6, 3, 0, 1, 0, 0, 0, 0,
];

#[cfg(test)]
mod tests {
    use super::TABLE_A;
    use crate::action::{receive, send, set, wait_any};
    use crate::layout::Layout;

    #[test]
    fn table_a_is_laid_out_so() {
        let prices = [set(0, 149), send(0, 0)];
        let pump = [receive(0, 2), wait_any(3, &[0])];
        let layout = Layout::new(1, 0, &[&prices, &pump]);
        assert_eq!(layout.bytes(), TABLE_A);
        assert_eq!(Layout::of(&TABLE_A), Some(layout));
    }
}
