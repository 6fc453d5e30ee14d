//! Times merge beside plain Rust and a plain pass over the bytes of the three
//! texts.

use crate::report::Times;
use crate::tables::Table;
use crate::timing::medians;
use crate::triples::Triple;
use crate::{ignore, plain_pass, twin};
use std::cell::RefCell;
use std::hint::black_box;

/// More than any merged table and any ledger takes.
const ROOMS: [usize; 2] = [32_768, 8_192];

type Texts<'a> = [&'a [u8]; 3];
type Buffers<'a> = [&'a mut [u8]; 2];

pub fn times(table: &Table) -> Times {
    let triple = Triple::of(table);
    must_agree(&triple);
    let texts = triple.texts.each_ref().map(Vec::as_slice);
    // The same for all, so that none has it nearer than the others.
    let buffers = RefCell::new(ROOMS.map(|room| vec![0; room]));
    let run = |merge: fn(Texts, Buffers)| {
        let mut buffers = buffers.borrow_mut();
        merge(
            texts.map(black_box),
            buffers.each_mut().map(Vec::as_mut_slice),
        );
    };
    let each = medians([
        &|| {
            run(|[old, first, second], [table, ledger]| {
                ignore(bridge::merge(old, first, second, table, ledger));
            })
        },
        &|| {
            run(|[old, first, second], [table, ledger]| {
                ignore(second::merge(old, first, second, table, ledger));
            })
        },
        &|| {
            run(|[old, first, second], [table, ledger]| {
                ignore(twin::merge(old, first, second, table, ledger));
            })
        },
        &|| run(|texts, _| ignore(texts.map(plain_pass))),
    ]);
    Times {
        bytes: triple.bytes(),
        each,
    }
}

/// Times mean nothing for different answers.
fn must_agree(triple: &Triple) {
    let [old, first, second] = triple.texts.each_ref().map(Vec::as_slice);
    let buffers = || ROOMS.map(|room| vec![0; room]);
    let [mut table, mut ledger] = buffers();
    let wanted = second::merge(old, first, second, &mut table, &mut ledger);
    assert_eq!((wanted.code, wanted.place), (0, 0));
    let [mut twin_table, mut twin_ledger] = buffers();
    let twin = twin::merge(old, first, second, &mut twin_table, &mut twin_ledger);
    assert_eq!(twin, wanted);
    assert!((&twin_table, &twin_ledger) == (&table, &ledger));
    let [mut proved_table, mut proved_ledger] = buffers();
    let proved = bridge::merge(old, first, second, &mut proved_table, &mut proved_ledger);
    assert_eq!(
        (proved.code, proved.table, proved.place),
        (wanted.code, wanted.table, wanted.place)
    );
    assert_eq!(
        (proved.table_length, proved.ledger_length),
        (wanted.table_length, wanted.ledger_length)
    );
    assert!((proved_table, proved_ledger) == (table, ledger));
}
