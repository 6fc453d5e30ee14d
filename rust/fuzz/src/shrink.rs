//! Makes a triple that shows a difference smaller, while it still shows one.

use crate::features::Texts;
use crate::mutate::lines;

/// What is different with these texts, if anything is.
type Judged<'a> = &'a dyn Fn(&Texts) -> Option<String>;

/// The smaller texts, and what is different with them. Where a difference is
/// gone without all that its maker knew of the triple, nothing is dropped.
pub fn shrunk(texts: Texts, said: String, judged: Judged) -> (Texts, String) {
    let mut shrinking = Shrinking {
        lines: texts.each_ref().map(|text| lines(text)),
        said,
        judged,
    };
    while shrinking.drop_runs() || shrinking.drop_records() {}
    (shrinking.texts(), shrinking.said)
}

struct Shrinking<'a> {
    lines: [Vec<Vec<u8>>; 3],
    said: String,
    judged: Judged<'a>,
}

impl Shrinking<'_> {
    fn texts(&self) -> Texts {
        self.lines.each_ref().map(|lines| lines.concat())
    }

    /// Goes back to the lines before if they show no difference any more.
    fn stays(&mut self, before: [Vec<Vec<u8>>; 3]) -> bool {
        match (self.judged)(&self.texts()) {
            Some(said) => {
                self.said = said;
                true
            }
            None => {
                self.lines = before;
                false
            }
        }
    }

    /// Lines that follow each other in one text, many before few.
    fn drop_runs(&mut self) -> bool {
        let mut dropped = false;
        for at in 0..self.lines.len() {
            let mut count = self.lines[at].len();
            while count > 0 {
                dropped |= self.drop_runs_of(at, count);
                count /= 2;
            }
        }
        dropped
    }

    fn drop_runs_of(&mut self, at: usize, count: usize) -> bool {
        let mut dropped = false;
        let mut from = 0;
        while from < self.lines[at].len() {
            let before = self.lines.clone();
            let to = (from + count).min(self.lines[at].len());
            self.lines[at].drain(from..to);
            match self.stays(before) {
                true => dropped = true,
                false => from = to,
            }
        }
        dropped
    }

    /// All lines of one record, in several texts at once.
    fn drop_records(&mut self) -> bool {
        let all = self.lines.iter().flatten();
        let mut numbers: Vec<Vec<u8>> = all.map(|line| number(line)).collect();
        numbers.sort();
        numbers.dedup();
        let mut dropped = false;
        for gone in numbers {
            for places in [&[0, 1, 2][..], &[0, 1], &[0, 2], &[1, 2]] {
                dropped |= self.drop_record(&gone, places);
            }
        }
        dropped
    }

    fn drop_record(&mut self, gone: &[u8], places: &[usize]) -> bool {
        let before = self.lines.clone();
        for &at in places {
            self.lines[at].retain(|line| number(line) != gone);
        }
        self.lines != before && self.stays(before)
    }
}

fn number(line: &[u8]) -> Vec<u8> {
    let end = line.iter().position(|&byte| byte == b'\t');
    line[..end.unwrap_or(line.len())].to_vec()
}

#[cfg(test)]
mod tests {
    use super::*;

    fn shrunk_while(texts: [&str; 3], shows: impl Fn(&Texts) -> bool) -> [String; 3] {
        let texts = texts.map(|text| text.as_bytes().to_vec());
        let judged = |texts: &Texts| shows(texts).then(|| "still".to_string());
        let (texts, _) = shrunk(texts, "at first".to_string(), &judged);
        texts.map(|text| String::from_utf8(text).expect("text"))
    }

    #[test]
    fn only_what_shows_it_is_left() {
        let shows = |texts: &Texts| texts[1].ends_with(b"c\n") && texts[2].starts_with(b"d");
        let left = shrunk_while(["a\nb\n", "a\nb\nc\n", "d\ne\n"], shows);
        assert_eq!(left, ["", "c\n", "d\n"]);
    }

    #[test]
    fn a_record_goes_from_all_texts() {
        let alike = |texts: &Texts| texts[0] == texts[1] && texts[0] == texts[2];
        let shows = |texts: &Texts| alike(texts) && texts[0].starts_with(b"7\t");
        let left = shrunk_while(["7\t0\tx\n8\t0\tx\n"; 3], shows);
        assert_eq!(left, ["7\t0\tx\n"; 3]);
    }

    #[test]
    fn nothing_goes_without_the_difference() {
        let left = shrunk_while(["a\n", "b\n", ""], |_| false);
        assert_eq!(left, ["a\n", "b\n", ""]);
    }
}
