//! The crate `regex` with its compiled patterns kept, so that the same files can be run at scale: they compile every pattern anew for
//! every row. A kept pattern is lent and not cloned, since a clone would begin with empty caches.
use std::cell::RefCell;

pub use real_regex::{Captures, Error, Match};

#[derive(Clone, Copy)]
pub struct Regex(&'static real_regex::Regex);

thread_local! {
    /// Patterns in the order of their first use, each with the place of its text: the files name theirs by literals, so the place finds it at once.
    static KEPT: RefCell<Vec<(*const u8, String, &'static real_regex::Regex)>> = RefCell::new(Vec::new());
}

impl Regex {
    pub fn new(pattern: &str) -> Result<Regex, Error> {
        KEPT.with(|kept| {
            let found = kept.borrow().iter().find(|(place, text, _)| *place == pattern.as_ptr() && text == pattern).map(|(_, _, made)| *made);
            if let Some(made) = found {
                return Ok(Regex(made));
            }
            let made: &'static real_regex::Regex = Box::leak(Box::new(real_regex::Regex::new(pattern)?));
            kept.borrow_mut().push((pattern.as_ptr(), pattern.to_string(), made));
            Ok(Regex(made))
        })
    }

    pub fn captures<'t>(&self, text: &'t str) -> Option<Captures<'t>> {
        self.0.captures(text)
    }

    pub fn is_match(&self, text: &str) -> bool {
        self.0.is_match(text)
    }
}
