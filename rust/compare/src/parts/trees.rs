//! Tables that tidy has to put in order. The written form is known.

use crate::case::Case;
use crate::random::Random;
use crate::tables::{draw_line_count, MOST_LINES};
use crate::trees::{Growth, LineOrder, Tree, GROWTHS, LINE_ORDERS};

/// With so many lines the contents can fill a table.
const FEWEST_LINES_OF_A_FULL_TABLE: usize = 300;

/// Every growth in every line order, of few and of most lines, and full.
pub fn shapes() -> Vec<Case> {
    let mut random = Random::new(512);
    let mut cases = vec![Case::accepted("", 0, 0).written_as(Vec::new())];
    for growth in GROWTHS {
        for order in LINE_ORDERS {
            for count in [1, 2, 3, 5, 8, 13, 100, 511, MOST_LINES] {
                let tree = Tree::grow(growth, count, &mut random);
                cases.push(case(&tree, order, &mut random));
            }
            for count in [FEWEST_LINES_OF_A_FULL_TABLE, 511, MOST_LINES] {
                cases.push(full(growth, count, order, &mut random));
            }
        }
    }
    cases
}

/// Any growth in any line order.
pub fn draw(random: &mut Random) -> Case {
    let count = draw_line_count(random);
    let tree = Tree::grow(random.pick(&GROWTHS), count, random);
    case(&tree, random.pick(&LINE_ORDERS), random)
}

/// Several parents, mostly of two children or more, which alternate.
pub fn draw_turns(random: &mut Random) -> Case {
    let count = draw_line_count(random).max(6);
    let growth = match random.below(6) {
        0 => Growth::Anywhere,
        1 => Growth::Deep,
        _ => Growth::Families(count / random.between(2, count / 3) - 1),
    };
    let tree = Tree::grow(growth, count, random);
    let order = random.pick(&[LineOrder::Turns, LineOrder::Turns, LineOrder::Any]);
    case(&tree, order, random)
}

/// Of exactly 32,768 bytes, half of them of 512 lines.
pub fn draw_full(random: &mut Random) -> Case {
    let count = match random.one_in(2) {
        true => MOST_LINES,
        false => random.between(FEWEST_LINES_OF_A_FULL_TABLE, MOST_LINES),
    };
    let growth = random.pick(&GROWTHS);
    full(growth, count, random.pick(&LINE_ORDERS), random)
}

fn full(growth: Growth, count: usize, order: LineOrder, random: &mut Random) -> Case {
    let mut tree = Tree::grow(growth, count, random);
    tree.fill(random);
    case(&tree, order, random)
}

fn case(tree: &Tree, order: LineOrder, random: &mut Random) -> Case {
    let text = tree.in_order(order, random);
    Case::accepted(text, tree.count(), tree.depth).written_as(tree.written())
}

#[cfg(test)]
mod tests {
    use super::*;

    #[test]
    fn most_turns_are_to_be_put_in_order() {
        let mut random = Random::new(1);
        let moved = (0..1_000)
            .map(|_| draw_turns(&mut random))
            .filter(|case| case.written.as_ref() != Some(&case.text))
            .count();
        assert!(moved > 800, "{moved}");
    }
}
