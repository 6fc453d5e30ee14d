//! Merging: three texts for both programs, and how their answers differ.

pub mod edits;
pub mod forest;
pub mod judge;
pub mod pairs;
mod rooms;

/// Three texts to merge, with the result where their maker knows it.
#[derive(Clone, Debug)]
pub struct Triple {
    /// Old, first and second.
    pub texts: [Vec<u8>; 3],
    pub known: Option<Known>,
}

/// What is known before either program has run.
#[derive(Clone, Debug)]
pub enum Known {
    /// Whatever room there is.
    Refused { code: u32, table: u32, place: u32 },
    /// The merged table and the ledger.
    Merged { table: Vec<u8>, ledger: Vec<u8> },
}

impl Triple {
    pub fn unknown(texts: [Vec<u8>; 3]) -> Triple {
        Triple { texts, known: None }
    }

    pub fn refused(texts: [Vec<u8>; 3], code: u32, table: u32, place: u32) -> Triple {
        Triple {
            texts,
            known: Some(Known::Refused { code, table, place }),
        }
    }

    pub fn merged(texts: [Vec<u8>; 3], table: Vec<u8>, ledger: Vec<u8>) -> Triple {
        Triple {
            texts,
            known: Some(Known::Merged { table, ledger }),
        }
    }
}
