//! The calls that are held to the second program.

use bridge::{Checked, Merged, Part, Tidied};

/// The proved library's, unless said otherwise: a test of the comparison puts
/// a wrong call in the place of one.
pub trait Calls: Sync {
    fn check(&self, text: &[u8]) -> Checked {
        bridge::check(text)
    }

    fn tidy(&self, text: &[u8], buffer: &mut [u8]) -> Tidied {
        bridge::tidy(text, buffer)
    }

    fn content_place(&self, text: &[u8], number: u32) -> Part {
        bridge::content_place(text, number)
    }

    fn content<'t>(&self, text: &'t [u8], number: u32) -> &'t [u8] {
        bridge::content(text, number)
    }

    /// Old, first and second, and the buffers for the table and the ledger.
    fn merge(&self, texts: [&[u8]; 3], table: &mut [u8], ledger: &mut [u8]) -> Merged {
        let [old, first, second] = texts;
        bridge::merge(old, first, second, table, ledger)
    }
}

/// The proved library.
pub struct Library;

impl Calls for Library {}
