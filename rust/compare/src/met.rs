//! The codes that the calls gave, and how often.

/// The codes check knows.
const OF_CHECK: [u32; 11] = [0, 1, 2, 3, 4, 5, 6, 7, 8, 9, 10];

/// The codes tidy knows.
const OF_TIDY: [u32; 12] = [0, 1, 2, 3, 4, 5, 6, 7, 8, 9, 10, 31];

/// The codes merge knows.
const OF_MERGE: [u32; 19] = [
    0, 1, 2, 3, 4, 5, 6, 7, 8, 9, 10, 21, 22, 23, 24, 25, 26, 31, 32,
];

/// Of each code of each call at least so many texts, or triples of texts, are
/// wanted in all.
pub const LEAST_OF_EACH_CODE: usize = 200;

/// One above the highest code.
const CODES: usize = 33;

/// The codes one call gave for one text or triple, each counted once however
/// often that was handed in.
#[derive(Clone, Copy, Debug, PartialEq, Eq)]
pub struct Codes([bool; CODES]);

impl Default for Codes {
    fn default() -> Codes {
        Codes([false; CODES])
    }
}

impl Codes {
    pub fn only(code: u32) -> Codes {
        let mut codes = Codes::default();
        codes.add(code);
        codes
    }

    pub fn add(&mut self, code: u32) {
        self.0[code as usize] = true;
    }
}

/// What the calls gave for one text or triple.
#[derive(Clone, Copy, Debug, Default)]
pub struct Given {
    pub check: Codes,
    pub tidy: Codes,
    pub merge: Codes,
}

/// On how many texts or triples a call gave each code.
#[derive(Clone, Copy, Debug)]
pub struct Times([usize; CODES]);

impl Default for Times {
    fn default() -> Times {
        Times([0; CODES])
    }
}

impl Times {
    fn count(&mut self, codes: Codes) {
        for (times, given) in self.0.iter_mut().zip(codes.0) {
            *times += usize::from(given);
        }
    }

    fn add(&mut self, other: Times) {
        for (sum, more) in self.0.iter_mut().zip(other.0) {
            *sum += more;
        }
    }
}

/// The codes that a call knows, and how often it gave them.
pub struct OfCall {
    pub call: &'static str,
    codes: &'static [u32],
    times: Times,
}

impl OfCall {
    /// The codes met too seldom for the comparison to mean much.
    pub fn too_seldom(&self) -> Vec<u32> {
        let seldom = |&code: &u32| self.times.0[code as usize] < LEAST_OF_EACH_CODE;
        self.codes.iter().copied().filter(seldom).collect()
    }

    pub fn listed(&self) -> String {
        let each: Vec<String> = self
            .codes
            .iter()
            .map(|&code| format!("{code}: {}", self.times.0[code as usize]))
            .collect();
        each.join(", ")
    }

    /// Whether it was made at all.
    pub fn was_made(&self) -> bool {
        self.times.0.iter().any(|&times| times > 0)
    }
}

/// The times of each call.
#[derive(Clone, Copy, Debug, Default)]
pub struct Met {
    pub check: Times,
    pub tidy: Times,
    pub merge: Times,
}

impl Met {
    pub fn count(&mut self, given: Given) {
        self.check.count(given.check);
        self.tidy.count(given.tidy);
        self.merge.count(given.merge);
    }

    pub fn of_each_call(&self) -> [OfCall; 3] {
        let of = |call, codes, times| OfCall { call, codes, times };
        [
            of("check", &OF_CHECK, self.check),
            of("tidy", &OF_TIDY, self.tidy),
            of("merge", &OF_MERGE, self.merge),
        ]
    }

    pub fn add(&mut self, other: Met) {
        self.check.add(other.check);
        self.tidy.add(other.tidy);
        self.merge.add(other.merge);
    }
}
