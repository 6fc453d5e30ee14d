//! Calls that are counted.

use bridge::{Checked, Merged, Part, Tidied};
use compare::calls::Calls;
use std::sync::atomic::{AtomicU64, Ordering};

pub struct Counted<'a> {
    calls: &'a dyn Calls,
    made: AtomicU64,
}

impl<'a> Counted<'a> {
    pub fn new(calls: &'a dyn Calls) -> Counted<'a> {
        Counted {
            calls,
            made: AtomicU64::new(0),
        }
    }

    pub fn made(&self) -> u64 {
        self.made.load(Ordering::Relaxed)
    }

    fn counted(&self) -> &'a dyn Calls {
        self.made.fetch_add(1, Ordering::Relaxed);
        self.calls
    }
}

impl Calls for Counted<'_> {
    fn check(&self, text: &[u8]) -> Checked {
        self.counted().check(text)
    }

    fn tidy(&self, text: &[u8], buffer: &mut [u8]) -> Tidied {
        self.counted().tidy(text, buffer)
    }

    fn content_place(&self, text: &[u8], number: u32) -> Part {
        self.counted().content_place(text, number)
    }

    fn content<'t>(&self, text: &'t [u8], number: u32) -> &'t [u8] {
        self.counted().content(text, number)
    }

    fn merge(&self, texts: [&[u8]; 3], table: &mut [u8], ledger: &mut [u8]) -> Merged {
        self.counted().merge(texts, table, ledger)
    }
}
