//! What became of the checks of a program. A failed check does not end the run, so that one fault shows all checks that
//! it fails; the first failure of each is kept.

use std::fmt::Debug;

/// A check's name, as reports show it.
pub type Check = &'static str;

/// What was tried, what was expected and what came.
pub struct Failure {
    pub tried: String,
    pub expected: String,
    pub came: String,
}

struct Tally {
    check: Check,
    tried: u64,
    failed: u64,
    first: Option<Failure>,
}

pub struct Verdict {
    tallies: Vec<Tally>,
}

impl Verdict {
    pub fn new(checks: &[Check]) -> Verdict {
        let tallies = checks.iter().map(|&check| Tally { check, tried: 0, failed: 0, first: None }).collect();
        Verdict { tallies }
    }

    pub fn check(&mut self, check: Check, holds: bool, failure: impl FnOnce() -> Failure) {
        let tally = self.tallies.iter_mut().find(|tally| tally.check == check).expect("the program lists its checks");
        tally.tried += 1;
        if !holds {
            tally.failed += 1;
            tally.first.get_or_insert_with(failure);
        }
    }

    pub fn equal<T: PartialEq + Debug>(
        &mut self,
        check: Check,
        expected: &T,
        came: &T,
        tried: impl FnOnce() -> String,
    ) {
        self.alike(check, expected, came, tried, |expected, came| (format!("{expected:?}"), format!("{came:?}")));
    }

    /// As `equal`, for things that are shown by how they differ.
    pub fn alike<T: PartialEq + ?Sized>(
        &mut self,
        check: Check,
        expected: &T,
        came: &T,
        tried: impl FnOnce() -> String,
        differ: impl FnOnce(&T, &T) -> (String, String),
    ) {
        self.check(check, expected == came, || {
            let (expected, came) = differ(expected, came);
            Failure { tried: tried(), expected, came }
        });
    }

    /// How often a check was tried.
    pub fn tried(&self, check: Check) -> u64 {
        self.tallies.iter().filter(|tally| tally.check == check).map(|tally| tally.tried).sum()
    }

    /// The report of every check that failed; a check that was never tried has failed too.
    pub fn failures(&self) -> Vec<String> {
        self.tallies.iter().filter_map(Tally::report).collect()
    }
}

impl Tally {
    fn report(&self) -> Option<String> {
        let Tally { check, tried, failed, first } = self;
        let what = match first {
            Some(Failure { tried: input, expected, came }) => format!(
                "  {failed} of {tried} times, first\n  tried:    {input}\n  expected: {expected}\n  came:     {came}"
            ),
            None if *tried == 0 => "  it was never tried".to_string(),
            None => return None,
        };
        Some(format!("failed check: {check}\n{what}"))
    }
}
