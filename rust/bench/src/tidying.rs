//! Times tidy beside plain Rust and a plain copy of the bytes.

use crate::ignore;
use crate::report::Times;
use crate::tables::Table;
use crate::timing::medians;
use crate::twin;
use std::cell::RefCell;
use std::hint::black_box;

pub fn times(table: &Table) -> Times {
    let text = &table.text[..];
    must_agree(text);
    // The same for all, so that none has it nearer than the others.
    let buffer = RefCell::new(vec![0; text.len()]);
    let each = medians([
        &|| ignore(bridge::tidy(black_box(text), &mut buffer.borrow_mut())),
        &|| ignore(second::tidy(black_box(text), text.len())),
        &|| ignore(twin::tidy(black_box(text), &mut buffer.borrow_mut())),
        &|| plain_copy(black_box(text), &mut buffer.borrow_mut()),
    ]);
    Times {
        bytes: text.len(),
        each,
    }
}

/// Times mean nothing for different answers.
fn must_agree(text: &[u8]) {
    let second = second::tidy(text, text.len());
    assert_eq!((second.code, second.length), (0, text.len()));
    for tidy in [bridge::tidy, twin::tidy] {
        let mut buffer = vec![0; text.len()];
        let tidied = tidy(text, &mut buffer);
        assert_eq!((tidied.code, tidied.line), (0, 0));
        assert_eq!(tidied.length, second.length);
        assert!(buffer == second.bytes);
    }
}

/// The least a writer of every byte can take.
fn plain_copy(text: &[u8], buffer: &mut [u8]) {
    buffer.copy_from_slice(text);
    black_box(buffer);
}
