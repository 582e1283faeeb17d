//! A panic while both engines are asked is a difference too: its words are kept, so that they come
//! with the input that led to it.

use std::cell::{Cell, RefCell};
use std::panic::{AssertUnwindSafe, catch_unwind, set_hook, take_hook};
use std::sync::Once;

thread_local! {
    /// Whether a panic is to be kept.
    static KEPT: Cell<bool> = const { Cell::new(false) };
    /// What it said.
    static SAID: RefCell<String> = const { RefCell::new(String::new()) };
}

/// What `work` gives, or what its panic said and where.
pub fn caught<T>(work: impl FnOnce() -> T) -> Result<T, String> {
    static HOOK: Once = Once::new();
    HOOK.call_once(|| {
        let shown = take_hook();
        set_hook(Box::new(move |panic| match KEPT.get() {
            true => SAID.set(panic.to_string()),
            false => shown(panic),
        }));
    });
    KEPT.set(true);
    let done = catch_unwind(AssertUnwindSafe(work));
    KEPT.set(false);
    done.map_err(|_| SAID.take())
}

#[cfg(test)]
mod tests {
    use super::caught;

    #[test]
    fn a_panic_is_kept_with_its_words() {
        assert_eq!(caught(|| 7), Ok(7));
        let said = caught(|| -> u8 { panic!("made up") }).unwrap_err();
        assert!(said.contains("made up") && said.contains("panics.rs"));
    }
}
