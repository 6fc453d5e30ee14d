//! tidy.

use crate::desk::Desk;

const MIXED: &str = "1\t0\troute\n2\t0\tnote\n3\t1\thold\n";
const TIDY: &str = "1\t0\troute\n3\t1\thold\n2\t0\tnote\n";

#[test]
fn the_written_form_goes_to_standard_output() {
    let desk = Desk::empty("tidy");
    desk.write("mixed.txt", MIXED);
    desk.run("tidy mixed.txt").accepted(TIDY);
    desk.run("tidy mixed.txt --table -").accepted(TIDY);
    desk.run_with_input("tidy -", MIXED).accepted(TIDY);
    assert_eq!(desk.read("mixed.txt"), MIXED);
}

#[test]
fn a_table_is_tidied_in_place() {
    let desk = Desk::empty("tidy-in-place");
    desk.write("mixed.txt", MIXED);
    for _ in 0..2 {
        desk.run("tidy mixed.txt --table mixed.txt").accepted("");
        assert_eq!(desk.all(), [("mixed.txt".into(), TIDY.into())]);
    }
}

#[test]
fn an_unreadable_table_stays() {
    let desk = Desk::empty("tidy-refused");
    desk.write("bad.txt", "2\t1\tx\n");
    let ran = desk.run("tidy bad.txt --table bad.txt");
    assert_eq!(ran.status, Some(1));
    assert_eq!(desk.all(), [("bad.txt".into(), "2\t1\tx\n".into())]);
}
