//! The slips that document 01 wants ruled out, and the order of the codes.

use crate::letters::{clashes, merges};

/// 2 is not lost because first lacks it where old had it: its own list and
/// content are old's, and no edit disagrees with them.
#[test]
fn an_old_fact_that_one_desk_lacks() {
    merges("1(2(4)) 3", "1 3", "1 3(2(4))", "1 3(2(4))", &[]);
    merges("1 2", "1 2 3", "1 2(4)", "1 2(4) 3", &[(3, 1), (4, 2)]);
}

#[test]
fn equal_edits_are_no_clash() {
    merges("1(2)", "1(2 3)", "1(2 3)", "1(2 3)", &[(3, 3)]);
    merges("1(2)", "1(2*)", "1(2*)", "1(2*)", &[(2, 3)]);
    merges("1(2)", "1 2", "1 2", "1 2", &[]);
    merges("1(2)", "1", "1", "1", &[]);
    merges("1 2", "1(3) 2", "1(3) 2*", "1(3) 2*", &[(3, 3), (2, 2)]);
}

/// The edit of first is START to END under 1.
#[test]
fn a_deleted_only_child_stays_away() {
    merges("1(2) 3", "1 3", "1(2) 3 4", "1 3 4", &[(4, 2)]);
    merges("1", "", "1", "", &[]);
}

#[test]
fn origins() {
    merges(
        "1 2 3 4",
        "1* 2* 3 4 5",
        "1* 2 3* 4 5",
        "1* 2* 3* 4 5",
        &[(1, 3), (2, 1), (3, 2), (5, 3)],
    );
}

/// 6 is new in first. Second has it too, with another content: two edits.
#[test]
fn one_number_two_contents() {
    clashes("1", "1 6", "1 6*", 21, 6);
}

/// Two conditions hold and the lower code is told, at a greater place.
#[test]
fn number_order() {
    clashes("1 2(3)", "1(3 6) 2", "1 2(3 6*)", 21, 6);
    clashes("1(2) 5 6 7(3)", "1(2 8) 5(3) 6 7", "1(2 9) 5 6(3) 7", 22, 3);
    clashes("1(2 3 4) 5(6)", "1(2 4) 5(6 7)", "1(2 3) 5(6 8)", 23, 5);
    clashes("9(2 3 4) 1(5)", "9(2 4) 1", "9(2 3) 1(5*)", 24, 9);
}

/// Two lists are broken, that of 7 and that of 4.
#[test]
fn least_broken_list() {
    clashes("7(1 2 3) 4(5 6 8)", "7(1 3) 4(5 8)", "7(1 2) 4(5 6)", 24, 4);
}

/// 3 stands on the list of 9 before it breaks, and its own list is broken.
#[test]
fn broken_below_a_broken_list() {
    clashes("9(3(4 5 6) 7 8)", "9(3(4 6) 8)", "9(3(4 5) 7)", 24, 3);
}

#[test]
fn edits_under_a_deleted_parent() {
    clashes("1 2(3)", "1", "1 2(3 4)", 25, 2);
    clashes("1 2(3(4))", "1", "1 2(3(4*))", 25, 4);
    clashes("5(6) 2(3)", "5(6)", "5(6) 2", 25, 2);
}

#[test]
fn lists_that_only_touch() {
    // An insertion before and one after 2, which stays between them.
    merges("1(2)", "1(3 2)", "1(2 4)", "1(3 2 4)", &[(3, 1), (4, 2)]);
    // At the top as well.
    merges("2", "3 2", "2 4", "3 2 4", &[(3, 1), (4, 2)]);
    clashes("", "1", "2", 23, 0);
}
