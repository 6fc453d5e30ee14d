//! Merges whose answers were worked out by hand from document 01.

mod letters;
mod limits;
mod notation;
mod slips;

use second::{merge, Merged};

/// What stands in the buffers before a call.
const FILLER: u8 = b'.';

/// More than any small merge takes.
const AMPLE: usize = 1_000;

const OLD: &str = "1\t0\tairport\tid=XQAA\n\
                   2\t1\thold\tfix=TARNO\tturn=L\n\
                   3\t1\tnote\ttext=old\n";
const FIRST: &str = "1\t0\tairport\tid=XQAA\n\
                     2\t1\thold\tfix=TARNO\tturn=L\n\
                     3\t1\tnote\ttext=new\n";
const SECOND: &str = "1\t0\tairport\tid=XQAA\n\
                      2\t1\thold\tfix=TARNO\tturn=L\n\
                      4\t1\thold\tfix=BELIN\tturn=R\n\
                      3\t1\tnote\ttext=old\n";
const MERGED: &str = "1\t0\tairport\tid=XQAA\n\
                      2\t1\thold\tfix=TARNO\tturn=L\n\
                      4\t1\thold\tfix=BELIN\tturn=R\n\
                      3\t1\tnote\ttext=new\n";
const LEDGER: &str = "1\t0\t15\n2\t0\t21\n4\t2\t21\n3\t1\t13\ntotal\t4\t70\n";

/// Old, first and second.
type Texts<'a> = [&'a str; 3];

/// A call with so much room: what it answers and both buffers afterwards.
fn call([old, first, second]: Texts, rooms: [usize; 2]) -> (Merged, Vec<u8>, Vec<u8>) {
    let [mut table, mut ledger] = rooms.map(|room| vec![FILLER; room]);
    let [old, first, second] = [old, first, second].map(str::as_bytes);
    let merged = merge(old, first, second, &mut table, &mut ledger);
    (merged, table, ledger)
}

/// The bytes, and fillers up to the room.
fn filled(bytes: &str, room: usize) -> Vec<u8> {
    let mut buffer = bytes.as_bytes().to_vec();
    buffer.resize(room, FILLER);
    buffer
}

#[track_caller]
fn leaves_buffers(texts: Texts, rooms: [usize; 2], refused: Merged) {
    let (merged, table, ledger) = call(texts, rooms);
    assert_eq!(merged, refused);
    assert_eq!(table, filled("", rooms[0]));
    assert_eq!(ledger, filled("", rooms[1]));
}

/// Whatever room there is.
#[track_caller]
fn refuses(texts: Texts, code: u32, table: u32, place: u32) {
    let refused = Merged {
        code,
        table,
        place,
        ..Merged::default()
    };
    for rooms in [[AMPLE, AMPLE], [0, AMPLE], [AMPLE, 0], [0, 0]] {
        leaves_buffers(texts, rooms, refused);
    }
}

/// With exact room and more, and refuses one byte less on either side.
#[track_caller]
fn accepts(texts: Texts, table: &str, ledger: &str) {
    let accepted = Merged {
        table_length: table.len(),
        ledger_length: ledger.len(),
        ..Merged::default()
    };
    for more in [[0, 0], [1, 0], [0, 1], [300, 500]] {
        let rooms = [table.len() + more[0], ledger.len() + more[1]];
        let (merged, table_buffer, ledger_buffer) = call(texts, rooms);
        assert_eq!(merged, accepted);
        assert_eq!(table_buffer, filled(table, rooms[0]));
        assert_eq!(ledger_buffer, filled(ledger, rooms[1]));
    }
    let ledger_short = ledger.len() - 1;
    leaves_buffers(texts, [table.len(), ledger_short], short(32, accepted));
    leaves_buffers(texts, [table.len() + 9, 0], short(32, accepted));
    if let Some(table_short) = table.len().checked_sub(1) {
        for ledger_room in [ledger.len() + 9, ledger.len(), ledger_short, 0] {
            leaves_buffers(texts, [table_short, ledger_room], short(31, accepted));
            leaves_buffers(texts, [0, ledger_room], short(31, accepted));
        }
    }
}

fn short(code: u32, accepted: Merged) -> Merged {
    Merged { code, ..accepted }
}

#[test]
fn demonstration() {
    let (merged, table, ledger) = call([OLD, FIRST, SECOND], [32_768, 8_192]);
    let answer = Merged {
        code: 0,
        table: 0,
        place: 0,
        table_length: 90,
        ledger_length: 39,
    };
    assert_eq!(merged, answer);
    assert_eq!(table, filled(MERGED, 32_768));
    assert_eq!(ledger, filled(LEDGER, 8_192));
    accepts([OLD, FIRST, SECOND], MERGED, LEDGER);
}

#[test]
fn demonstration_with_the_desks_swapped() {
    let traded = "1\t0\t15\n2\t0\t21\n4\t1\t21\n3\t2\t13\ntotal\t4\t70\n";
    accepts([OLD, SECOND, FIRST], MERGED, traded);
}

#[test]
fn empty_tables() {
    let ledger = "total\t0\t0\n";
    assert_eq!(ledger.len(), 10);
    accepts([""; 3], "", ledger);
    accepts([OLD, "", OLD], "", ledger);
    accepts([OLD, "", ""], "", ledger);
}

/// The first refused table is told, with its line.
#[test]
fn refused_tables() {
    let bad_number = "1\t0\tx\n0\t0\tx\n";
    let absent_parent = "1\t0\tx\n2\t0\tx\n3\t9\tx\n";
    let unended = "1\t0\tx";
    refuses([bad_number, OLD, OLD], 6, 1, 2);
    refuses([OLD, absent_parent, OLD], 10, 2, 3);
    refuses([OLD, OLD, unended], 2, 3, 1);
    refuses([unended, bad_number, absent_parent], 2, 1, 1);
    refuses([absent_parent, OLD, bad_number], 10, 1, 3);
    refuses([OLD, bad_number, unended], 6, 2, 2);
    let long = "\n".repeat(32_769);
    refuses([OLD, OLD, &long], 1, 3, 0);
    refuses([OLD, &long, bad_number], 1, 2, 0);
}

/// Lines in another order are the same tables.
#[test]
fn line_order_does_not_matter() {
    accepts(
        [
            "1\t0\ta\n2\t0\tb\n3\t1\tc\n4\t2\td\n",
            "2\t0\tb\n4\t2\td\n1\t0\ta\n3\t1\tc\n",
            "1\t0\ta\n2\t0\tb\n4\t2\td\n3\t1\tc\n5\t1\te\n",
        ],
        "2\t0\tb\n4\t2\td\n1\t0\ta\n3\t1\tc\n5\t1\te\n",
        "2\t0\t1\n4\t0\t1\n1\t0\t1\n3\t0\t1\n5\t2\t1\ntotal\t5\t5\n",
    );
}
