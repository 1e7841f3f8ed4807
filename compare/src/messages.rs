//! Document 01's numbers for the Rust's messages.

use std::cell::RefCell;
use std::collections::HashMap;

thread_local! {
    /// Messages whose number was found, by their list.
    static FOUND: RefCell<HashMap<*const (&'static str, u32), HashMap<String, u32>>> = RefCell::default();
}

/// The number of the first part of the list that the message holds.
pub fn number(text: &str, known: &'static [(&'static str, u32)]) -> u32 {
    FOUND.with_borrow_mut(|found| {
        let found = found.entry(known.as_ptr()).or_default();
        if let Some(&number) = found.get(text) {
            return number;
        }
        let number = known.iter().find(|(part, _)| text.contains(part)).unwrap_or_else(|| panic!("an unknown message: {text}")).1;
        found.insert(text.to_string(), number);
        number
    })
}
