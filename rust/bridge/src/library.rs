//! The library's exports, and the unsafe calls to them.

use super::{Checked, Merged, Part, Tidied};

#[cfg(not(target_arch = "x86_64"))]
compile_error!("the proved library is for x86-64");

// The members and their order are those of the library's own structs.
extern "C" {
    fn brooksaddle_check(text: *const u8, length: usize) -> Checked;

    fn brooksaddle_tidy(text: *const u8, length: usize, buffer: *mut u8, room: usize) -> Tidied;

    fn brooksaddle_content(text: *const u8, length: usize, number: u32) -> Part;

    fn brooksaddle_merge(
        old: *const u8,
        old_length: usize,
        first: *const u8,
        first_length: usize,
        second: *const u8,
        second_length: usize,
        table: *mut u8,
        table_room: usize,
        ledger: *mut u8,
        ledger_room: usize,
    ) -> Merged;
}

pub fn check(text: &[u8]) -> Checked {
    // SAFETY: the pointer and length are those of a live slice, so all its
    // bytes may be read, and the pointer is not null even when it is empty.
    // The library only reads the text and keeps nothing of it after the
    // call.
    unsafe { brooksaddle_check(text.as_ptr(), text.len()) }
}

pub fn tidy(text: &[u8], buffer: &mut [u8]) -> Tidied {
    // SAFETY: as in `check` for the text. The buffer's pointer and length
    // are those of a live slice lent to this call alone, so all its bytes
    // may be written and none is one of the text's. The library writes
    // nowhere else, and keeps nothing of either after the call.
    unsafe { brooksaddle_tidy(text.as_ptr(), text.len(), buffer.as_mut_ptr(), buffer.len()) }
}

pub fn content(text: &[u8], number: u32) -> Part {
    // SAFETY: as in `check`. The answer is two numbers and holds no
    // pointer.
    unsafe { brooksaddle_content(text.as_ptr(), text.len(), number) }
}

pub fn merge([old, first, second]: [&[u8]; 3], [table, ledger]: [&mut [u8]; 2]) -> Merged {
    // SAFETY: as in `tidy` for each of the texts and of the buffers. Both
    // buffers are lent to this call alone, so they have no byte in common.
    unsafe {
        brooksaddle_merge(
            old.as_ptr(),
            old.len(),
            first.as_ptr(),
            first.len(),
            second.as_ptr(),
            second.len(),
            table.as_mut_ptr(),
            table.len(),
            ledger.as_mut_ptr(),
            ledger.len(),
        )
    }
}
