//! The stack one call uses. The call is made below more and more frames of
//! known size until the stack overflows. That ends the process, so each try is
//! made in a process of its own: this program again.

use crate::ignore;
use crate::tables::{Table, SHAPES};
use crate::triples::Triple;
use crate::twin;
use std::env;
use std::hint::black_box;
use std::io;
use std::process::{Command, Stdio};
use std::thread;

pub const CHILD: &str = "--stack-child";

const STACK: usize = 8 << 20;
const FRAME: usize = 256;
const MOST_FRAMES: usize = STACK / FRAME;

struct Tried {
    name: &'static str,
    call: fn(&Table),
}

const NOTHING: Tried = Tried {
    name: "nothing",
    call: |_| (),
};

const CALLS: [Tried; 10] = [
    Tried {
        name: "proved check",
        call: |table| ignore(bridge::check(&table.text)),
    },
    Tried {
        name: "proved tidy",
        call: |table| ignore(bridge::tidy(&table.text, &mut vec![0; table.text.len()])),
    },
    Tried {
        name: "proved content",
        call: |table| ignore(bridge::content_place(&table.text, table.last)),
    },
    Tried {
        name: "proved merge",
        call: |table| {
            merge_with(table, |[old, first, second], table, ledger| {
                ignore(bridge::merge(old, first, second, table, ledger));
            })
        },
    },
    Tried {
        name: "second check",
        call: |table| ignore(second::check(&table.text)),
    },
    Tried {
        name: "second tidy",
        call: |table| ignore(second::tidy(&table.text, table.text.len())),
    },
    Tried {
        name: "second merge",
        call: |table| {
            merge_with(table, |[old, first, second], table, ledger| {
                ignore(second::merge(old, first, second, table, ledger));
            })
        },
    },
    Tried {
        name: "twin check",
        call: |table| ignore(twin::check(&table.text)),
    },
    Tried {
        name: "twin tidy",
        call: |table| ignore(twin::tidy(&table.text, &mut vec![0; table.text.len()])),
    },
    Tried {
        name: "twin merge",
        call: |table| {
            merge_with(table, |[old, first, second], table, ledger| {
                ignore(twin::merge(old, first, second, table, ledger));
            })
        },
    },
];

/// The table with two desks' edits, and buffers on the heap.
fn merge_with(table: &Table, merge: fn([&[u8]; 3], &mut [u8], &mut [u8])) {
    let triple = Triple::of(table);
    let texts = triple.texts.each_ref().map(Vec::as_slice);
    merge(texts, &mut vec![0; 32_768], &mut vec![0; 8_192]);
}

/// Prints the stack each call uses on a full table.
pub fn report() -> io::Result<()> {
    println!("stack one call uses on 512 lines, bytes (to about {FRAME})");
    for shape in &SHAPES {
        let all = most_above(shape.name, NOTHING.name)?.unwrap_or(0);
        for tried in &CALLS {
            match most_above(shape.name, tried.name)? {
                Some(above) => println!("{:12}{:16}{:9}", shape.name, tried.name, all - above),
                None => println!("{:12}{:16} over {all}", shape.name, tried.name),
            }
        }
    }
    Ok(())
}

/// The most bytes of frames above the call with which it still survives.
fn most_above(shape: &str, call: &str) -> io::Result<Option<usize>> {
    let Some(mut most) = bytes_above(shape, call, 0)? else {
        return Ok(None);
    };
    let (mut few, mut too_many) = (0, MOST_FRAMES);
    while too_many - few > 1 {
        let frames = (few + too_many) / 2;
        match bytes_above(shape, call, frames)? {
            Some(bytes) => (few, most) = (frames, bytes),
            None => too_many = frames,
        }
    }
    Ok(Some(most))
}

/// The bytes of that many frames, or none if the stack overflowed.
fn bytes_above(shape: &str, call: &str, frames: usize) -> io::Result<Option<usize>> {
    let output = Command::new(env::current_exe()?)
        .args([CHILD, shape, call, &frames.to_string()])
        .stderr(Stdio::null())
        .output()?;
    if !output.status.success() {
        return Ok(None);
    }
    let bytes = String::from_utf8_lossy(&output.stdout).trim().parse();
    bytes.map(Some).map_err(io::Error::other)
}

/// The process that may end by an overflow. None if the arguments make no sense.
pub fn child(arguments: &[String]) -> Option<()> {
    let [shape, call, frames] = arguments else {
        return None;
    };
    let shape = SHAPES.iter().find(|known| known.name == shape)?;
    let call = [&NOTHING]
        .into_iter()
        .chain(&CALLS)
        .find(|known| known.name == call)?
        .call;
    let frames = frames.parse().ok()?;
    let table = (shape.table)(512);
    let bytes = thread::scope(|scope| {
        thread::Builder::new()
            .stack_size(STACK)
            .spawn_scoped(scope, || {
                let top = 0_u8;
                let top = address(&top);
                top - call_below(frames, &|| call(&table))
            })
            .ok()?
            .join()
            .ok()
    })?;
    println!("{bytes}");
    Some(())
}

/// Makes the call below so many frames and tells the address reached.
#[inline(never)]
fn call_below(frames: usize, call: &dyn Fn()) -> usize {
    let frame = black_box([0_u8; FRAME]);
    let reached = if frames == 0 {
        call();
        address(&frame[0])
    } else {
        call_below(frames - 1, call)
    };
    // The frame is needed until here, so the call above can't be a jump.
    black_box(&frame);
    reached
}

fn address(byte: &u8) -> usize {
    std::ptr::from_ref(byte) as usize
}
