//! The list of one parent in several tables, shown around what differs.

use crate::rows::Row;

/// A run of alike records is cut short from this length on.
const LEAST_CUT: usize = 3;

/// The lines that show each list, given the list's rows in each table. Where
/// several records on end have the same neighbours in every table, only their
/// count is told: the writers need to see what differs, and what stands beside it.
pub fn shown(lists: &[Vec<Row>]) -> Vec<Vec<String>> {
    lists.iter().map(|list| shown_among(list, lists)).collect()
}

/// A row with the number of its line.
pub fn shown_row(row: &Row) -> String {
    format!("line {:>3}: {}", row.line, row.text)
}

fn shown_among(list: &[Row], lists: &[Vec<Row>]) -> Vec<String> {
    if list.is_empty() {
        return vec!["no records".to_string()];
    }
    let marked: Vec<(&Row, bool)> = list
        .iter()
        .map(|row| (row, is_alike(row.number, lists)))
        .collect();
    marked
        .chunk_by(|(_, one), (_, next)| one == next)
        .flat_map(shown_run)
        .collect()
}

/// Rows on end that are all alike in all tables, or none of them.
fn shown_run(run: &[(&Row, bool)]) -> Vec<String> {
    let all_alike = run.iter().all(|(_, alike)| *alike);
    if all_alike && run.len() >= LEAST_CUT {
        return vec![format!(
            "… {} records in the same order in all three",
            run.len()
        )];
    }
    run.iter().map(|(row, _)| shown_row(row)).collect()
}

/// Whether the record has the same neighbours in every list.
fn is_alike(number: u32, lists: &[Vec<Row>]) -> bool {
    let mut found = lists.iter().map(|list| neighbours(number, list));
    let first = found.next().flatten();
    first.is_some() && found.all(|neighbours| neighbours == first)
}

/// Who stands before and behind the record in the list; none if it isn't there.
fn neighbours(number: u32, list: &[Row]) -> Option<(Option<u32>, Option<u32>)> {
    let place = list.iter().position(|row| row.number == number)?;
    let before = place.checked_sub(1).map(|place| list[place].number);
    let behind = list.get(place + 1).map(|row| row.number);
    Some((before, behind))
}

#[cfg(test)]
mod tests {
    use super::*;

    fn list(numbers: &[u32]) -> Vec<Row<'static>> {
        let row = |(place, &number)| Row {
            line: place + 1,
            number,
            parent: 0,
            text: "",
        };
        numbers.iter().enumerate().map(row).collect()
    }

    /// Each shown list as the lines that it names; a cut is 0.
    fn lines(lists: &[Vec<Row>]) -> Vec<Vec<usize>> {
        let line = |told: &String| {
            let digits = told
                .strip_prefix("line ")
                .and_then(|rest| rest.split(':').next());
            digits.map_or(0, |digits| digits.trim().parse().unwrap())
        };
        let shown = shown(lists);
        shown
            .iter()
            .map(|list| list.iter().map(line).collect())
            .collect()
    }

    #[test]
    fn only_the_neighbours_of_a_change_are_shown() {
        let old: Vec<u32> = (1..=10).collect();
        let first = [1, 2, 3, 4, 5, 11, 6, 7, 8, 9, 10];
        let second = [1, 2, 3, 4, 5, 12, 6, 7, 8, 9, 10];
        let lists = [list(&old), list(&first), list(&second)];
        let expected = [vec![0, 5, 6, 0], vec![0, 5, 6, 7, 0], vec![0, 5, 6, 7, 0]];
        assert_eq!(lines(&lists), expected);
        assert_eq!(
            shown(&lists)[0][0],
            "… 4 records in the same order in all three"
        );
    }

    #[test]
    fn changes_far_apart_are_both_shown() {
        let old: Vec<u32> = (1..=300).collect();
        let first: Vec<u32> = (2..=300).collect();
        let second: Vec<u32> = (1..=299).collect();
        let lists = [list(&old), list(&first), list(&second)];
        let expected = [
            vec![1, 2, 0, 299, 300],
            vec![1, 0, 298, 299],
            vec![1, 2, 0, 299],
        ];
        assert_eq!(lines(&lists), expected);
    }

    #[test]
    fn short_runs_are_not_cut() {
        let lists = [list(&[1, 2, 3, 4]), list(&[1, 2, 3]), list(&[1, 2, 3, 4])];
        let expected = [vec![1, 2, 3, 4], vec![1, 2, 3], vec![1, 2, 3, 4]];
        assert_eq!(lines(&lists), expected);
    }

    #[test]
    fn an_empty_list_is_said_to_be_one() {
        let lists = [list(&[]), list(&[1]), list(&[])];
        assert_eq!(shown(&lists)[0], ["no records"]);
        assert_eq!(shown(&lists)[1], ["line   1: "]);
    }

    #[test]
    fn equal_lists_are_cut_whole() {
        let lists = [list(&[3, 1, 2]), list(&[3, 1, 2]), list(&[3, 1, 2])];
        assert_eq!(lines(&lists), [[0], [0], [0]]);
    }
}
