//! Lines that are written as they are, right or wrong.

#[derive(Clone, Debug, PartialEq, Eq)]
pub struct Line {
    pub number: Vec<u8>,
    pub parent: Vec<u8>,
    pub content: Vec<u8>,
    /// What parts number, parent and content: two tabs on a good line.
    pub parting: [Vec<u8>; 2],
}

impl Line {
    pub fn new(number: u32, parent: u32, content: impl Into<Vec<u8>>) -> Line {
        Line {
            number: number.to_string().into_bytes(),
            parent: parent.to_string().into_bytes(),
            content: content.into(),
            parting: [b"\t".to_vec(), b"\t".to_vec()],
        }
    }

    fn write(&self, text: &mut Vec<u8>) {
        text.extend(&self.number);
        text.extend(&self.parting[0]);
        text.extend(&self.parent);
        text.extend(&self.parting[1]);
        text.extend(&self.content);
        text.push(b'\n');
    }
}

pub fn text_of(lines: &[Line]) -> Vec<u8> {
    let mut text = Vec::new();
    for line in lines {
        line.write(&mut text);
    }
    text
}

/// A table whose records all stand at the top.
pub fn tops(count: usize) -> Vec<Line> {
    (1..=count as u32)
        .map(|number| Line::new(number, 0, "x"))
        .collect()
}

/// Each record is the child of the one on the line before.
pub fn chain(count: usize) -> Vec<Line> {
    (1..=count as u32)
        .map(|number| Line::new(number, number - 1, "x"))
        .collect()
}

/// All records but the first are children of the first.
pub fn wide(count: usize) -> Vec<Line> {
    (1..=count as u32)
        .map(|number| Line::new(number, u32::from(number > 1), "x"))
        .collect()
}

/// Lengthens contents, up to 120 bytes each, until the text has so many bytes.
/// The contents before must be short and tabs must not end them.
pub fn lengthen_to(lines: &mut [Line], bytes: usize) {
    let mut missing = bytes - text_of(lines).len();
    for line in lines {
        let added = missing.min(120 - line.content.len());
        line.content.extend(vec![b'x'; added]);
        missing -= added;
    }
    assert_eq!(missing, 0, "too few lines for so many bytes");
}
