//! Document 01's notation for trees: 1(2 3*) is record 1 with the children 2 and
//! 3, of which 3 has a new content.

/// The table in its written form.
pub fn table(tree: &str) -> String {
    let mut lines = String::new();
    let mut parents = vec![0];
    let mut last = 0;
    let spaced = tree.replace('(', " ( ").replace(')', " ) ");
    for word in spaced.split_whitespace() {
        match word {
            "(" => parents.push(last),
            ")" => drop(parents.pop()),
            _ => {
                let number = word.trim_end_matches('*');
                let mark = if word == number { "" } else { " new" };
                let parent = parents[parents.len() - 1];
                lines += &format!("{number}\t{parent}\tkind\tn={number}{mark}\n");
                last = number.parse().expect("a number");
            }
        }
    }
    lines
}

#[test]
fn trees_as_tables() {
    assert_eq!(table(""), "");
    assert_eq!(
        table("1(2 3*(4)) 5"),
        "1\t0\tkind\tn=1\n2\t1\tkind\tn=2\n3\t1\tkind\tn=3 new\n\
         4\t3\tkind\tn=4\n5\t0\tkind\tn=5\n"
    );
}
