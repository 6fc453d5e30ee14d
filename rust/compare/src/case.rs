//! A text to run both programs over, with the answer where the maker of the
//! text knows it.

/// The answer of check.
#[derive(Clone, Copy, Debug, PartialEq, Eq)]
pub struct Answer {
    pub code: u32,
    pub line: u32,
    pub count: usize,
    pub depth: usize,
}

#[derive(Clone, Debug)]
pub struct Case {
    pub text: Vec<u8>,
    /// Of check.
    pub expected: Option<Answer>,
    /// The written form of the table.
    pub written: Option<Vec<u8>>,
}

impl Case {
    pub fn accepted(text: impl Into<Vec<u8>>, count: usize, depth: usize) -> Case {
        Case {
            text: text.into(),
            expected: Some(Answer {
                code: 0,
                line: 0,
                count,
                depth,
            }),
            written: None,
        }
    }

    /// An accepted case whose maker knows the written form as well.
    pub fn written_as(self, written: Vec<u8>) -> Case {
        Case {
            written: Some(written),
            ..self
        }
    }

    pub fn refused(text: impl Into<Vec<u8>>, code: u32, line: usize) -> Case {
        Case {
            text: text.into(),
            expected: Some(Answer {
                code,
                line: line as u32,
                count: 0,
                depth: 0,
            }),
            written: None,
        }
    }

    pub fn unknown(text: impl Into<Vec<u8>>) -> Case {
        Case {
            text: text.into(),
            expected: None,
            written: None,
        }
    }
}
