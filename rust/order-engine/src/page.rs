//! What a schedule leads to, laid out for people.

use crate::fields::Fields;
use crate::refusal::Refusal;

unsafe extern "C" {
    fn order_page(
        table: *const u8,
        table_length: usize,
        schedule: *const u8,
        schedule_length: usize,
        page: *mut u8,
        page_length: usize,
    ) -> Fields<1>;
}

/// The bytes that [`page`] wants lent. No page is longer.
pub const PAGE_ROOM: usize = 816;

/// Steps `schedule` from a fresh site and lays the state it leads to out in `buffer`, which must have
/// at least [`PAGE_ROOM`] bytes: a line for each actor, with its number, position, status (`ready`,
/// `waits`, `over` or `finished`) and cells. Answers with the page; bytes after it keep what they held.
///
/// Refusals: 20, then 1 to 9, then 11 to 13 and 21. A refused call writes nothing.
///
/// ```
/// // One actor that sets cell 0 to 7.
/// let table = [1, 1, 0, 0, 8, 0, 1, 0, 0, 0, 0, 0, 7, 0, 0, 0];
/// let mut buffer = [0; order_engine::PAGE_ROOM];
/// let page = order_engine::page(&table, &[0], &mut buffer).unwrap();
/// assert!(page.starts_with("0  1 finished          7          0 "));
/// assert_eq!(page.len(), 102);
/// ```
pub fn page<'a>(table: &[u8], schedule: &[u8], buffer: &'a mut [u8]) -> Result<&'a str, Refusal> {
    let [length] = fields(table, schedule, buffer).accepted()?;
    match str::from_utf8(&buffer[..length as usize]) {
        Ok(page) => Ok(page),
        Err(error) => unreachable!("order_page laid out what is no text: {error}"),
    }
}

/// The answer as C has it: the page's length.
pub fn fields(table: &[u8], schedule: &[u8], buffer: &mut [u8]) -> Fields<1> {
    // SAFETY: pointers and lengths are those of slices that are borrowed throughout the call, the
    // buffer mutably. The call reads the first two and writes inside the third.
    unsafe {
        order_page(
            table.as_ptr(),
            table.len(),
            schedule.as_ptr(),
            schedule.len(),
            buffer.as_mut_ptr(),
            buffer.len(),
        )
    }
}
