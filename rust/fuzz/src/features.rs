//! What is noted of a triple by its answer, to tell the usual from the new.

use compare::merging::judge::Wanted;
use second::Merged;

pub type Texts = [Vec<u8>; 3];

#[derive(Clone, Debug, PartialEq, Eq, Hash)]
pub struct Features {
    code: u32,
    table: u32,
    /// By size.
    place: u32,
    /// How many lines the texts have together, by size.
    lines: u32,
    merged: Option<MergedFeatures>,
}

#[derive(Clone, Debug, PartialEq, Eq, Hash)]
struct MergedFeatures {
    records: u32,
    depth: u32,
    /// A bit for each origin that the ledger has.
    origins: u8,
    /// Whether the merged table is the text of old, first or second.
    is_text: [bool; 3],
}

impl Features {
    pub fn of(texts: &Texts, result: &Wanted) -> Features {
        let told = match result {
            Ok(_) => Merged::default(),
            Err(refused) => *refused,
        };
        let merged = result.as_ref().ok().map(|merged| MergedFeatures {
            records: size(lines(&merged.table)),
            depth: size(second::check(&merged.table).depth),
            origins: origins(&merged.ledger),
            is_text: texts.each_ref().map(|text| *text == merged.table),
        });
        Features {
            code: told.code,
            table: told.table,
            place: size(told.place as usize),
            lines: size(texts.iter().map(|text| lines(text)).sum()),
            merged,
        }
    }

    pub fn are_of_a_refused_table(&self) -> bool {
        self.table > 0
    }
}

/// 0, 1, 2 to 3, 4 to 7, and so on.
fn size(number: usize) -> u32 {
    usize::BITS - number.leading_zeros()
}

fn lines(text: &[u8]) -> usize {
    text.iter().filter(|&&byte| byte == b'\n').count()
}

fn origins(ledger: &[u8]) -> u8 {
    let mut origins = 0;
    for line in ledger.split(|&byte| byte == b'\n') {
        let mut fields = line.split(|&byte| byte == b'\t');
        if let (Some(number), Some([origin @ b'0'..=b'3'])) = (fields.next(), fields.next()) {
            if number != b"total" {
                origins |= 1 << (origin - b'0');
            }
        }
    }
    origins
}

#[cfg(test)]
mod tests {
    use super::*;

    fn features(texts: [&[u8]; 3]) -> Features {
        let [old, first, second] = texts;
        let result = second::merged_bytes(old, &[first, second]);
        Features::of(&texts.map(<[u8]>::to_vec), &result)
    }

    #[test]
    fn answers_are_told_apart() {
        let (x, y, z) = (b"1\t0\tx\n", b"1\t0\ty\n", b"1\t0\tz\n");
        let unended = b"1\t0\tx\n2";
        let all = [
            features([x, x, x]),
            features([x, y, x]),
            features([x, x, y]),
            features([x, y, y]),
            features([x, y, z]),
            features([x, y, unended]),
            features([unended, y, x]),
        ];
        for (place, one) in all.iter().enumerate() {
            assert!(!all[..place].contains(one), "{one:?}");
        }
        // Other contents are nothing new.
        assert_eq!(features([x, y, x]), features([y, z, y]));
    }

    #[test]
    fn origins_of_a_ledger() {
        assert_eq!(origins(b"1\t0\t3\n12\t3\t1\ntotal\t2\t4\n"), 0b1001);
        assert_eq!(origins(b"total\t1\t4\n"), 0);
    }

    #[test]
    fn sizes() {
        assert_eq!([0, 1, 2, 3, 4, 512].map(size), [0, 1, 2, 2, 3, 10]);
    }
}
