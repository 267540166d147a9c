//! One memory and a run of calls on it. What the memory has to hold is read once, by its layout, and then kept by the
//! plain program: so every later answer is compared with what the calls before it should have left.

use super::{Call, Harness, KEPT, LEDGER, LOOKUP, OUTPUT, SCRATCH, TIDY, UNTOUCHED, UPDATE, WRITE};
use crate::plain::{self, Ledger, Prefix, SCRATCH_WORDS};
use crate::verdict::Failure;
use crate::{layout, show};
use doors::{Counted, Found, Memory};

pub struct Trial<'h, 'v> {
    harness: &'h mut Harness<'v>,
    /// What kind of memory this is and how it is found again, for reports.
    name: String,
    calls: u64,
    memory: Memory,
    /// The ledger that the memory has to hold, or the refusal that every call has to give.
    held: Result<Ledger, u32>,
    from_zeros: bool,
}

impl<'h, 'v> Trial<'h, 'v> {
    pub fn new(harness: &'h mut Harness<'v>, name: String, memory: Memory) -> Trial<'h, 'v> {
        let held = layout::read(&memory);
        let name = format!("{name}, {} slots", memory.up.len());
        Trial { harness, name, calls: 0, memory, held, from_zeros: false }
    }

    pub fn from_zeros(harness: &'h mut Harness<'v>, name: String, slots: usize) -> Trial<'h, 'v> {
        Trial { from_zeros: true, ..Trial::new(harness, name, Memory::zeroed(slots)) }
    }

    pub fn slots(&self) -> usize {
        self.memory.up.len()
    }

    /// The prefixes that the memory has to hold, none where it is refused.
    pub fn prefixes(&self) -> Vec<Prefix> {
        self.held.iter().flat_map(|ledger| ledger.routes()).map(|(prefix, _)| prefix).collect()
    }

    /// The records that the smallest table has, 0 where the memory is refused.
    pub fn records(&self) -> usize {
        self.held.as_ref().map_or(0, |ledger| plain::smallest(ledger).len())
    }

    pub fn update(&mut self, list: &[u8]) -> Counted {
        let Trial { harness, name, calls, memory, held, from_zeros } = self;
        *calls += 1;
        let tried = || format!("{name}, call {calls}: update with {}", show::list(list));
        let before = memory.clone();
        let came = harness.ours.update(memory, list);
        let expected = match held {
            Ok(ledger) => plain::update(ledger, before.up.len(), list),
            Err(number) => Counted { number: *number, count: 0 },
        };
        harness.note(Call::Update, came.number);
        harness.verdict.equal(UPDATE, &expected, &came, tried);
        let left = layout::read(memory);
        harness.verdict.alike(LEDGER, held, &left, tried, show::ledgers);
        if expected.count == 0 && expected.number != 9 {
            harness.verdict.alike(UNTOUCHED, &before, memory, tried, changed);
        }
        if *from_zeros && left.is_ok() {
            let untidy = layout::untidy(memory);
            harness.verdict.check(TIDY, untidy.is_none(), || Failure {
                tried: tried(),
                expected: "tidy memory".to_string(),
                came: untidy.unwrap_or_default(),
            });
        }
        came
    }

    pub fn lookups(&mut self, addresses: &[u32]) -> Vec<Found> {
        let Trial { harness, name, calls, memory, held, .. } = self;
        *calls += 1;
        let before = memory.clone();
        let found = addresses.iter().map(|&address| {
            let expected = match held {
                Ok(ledger) => Found { number: 0, hop: u32::from(ledger.longest_match(address)), place: 0 },
                Err(number) => Found { number: *number, hop: 0, place: 0 },
            };
            let came = harness.ours.lookup(memory, address);
            harness.note(Call::Lookup, came.number);
            harness
                .verdict
                .equal(LOOKUP, &expected, &came, || format!("{name}, call {calls}: lookup of {address:#010x}"));
            came
        });
        let found = found.collect();
        harness.verdict.alike(KEPT, &before, memory, || format!("{name}, call {calls}: lookups"), changed);
        found
    }

    /// Writes with this scratch into this output, and gives back what became of the output.
    pub fn write(&mut self, scratch: &[u64], output: &[u8]) -> (Counted, Vec<u8>) {
        let Trial { harness, name, calls, memory, held, .. } = self;
        *calls += 1;
        let (words, room) = (scratch.len(), output.len());
        let tried = || format!("{name}, call {calls}: writing with {words} words of scratch into {room} bytes");
        let before = memory.clone();
        let (mut scratch_left, mut output_left) = (scratch.to_vec(), output.to_vec());
        let came = harness.ours.write(memory, &mut scratch_left, &mut output_left);
        harness.note(Call::Write, came.number);

        let mut expected_output = output.to_vec();
        let expected = write_expected(held, memory.up.len(), words, &mut expected_output);
        let expected_scratch = if matches!(expected.number, 0 | 11) { vec![0; words] } else { scratch.to_vec() };
        harness.verdict.equal(WRITE, &expected, &came, tried);
        harness.verdict.alike(OUTPUT, &expected_output[..], &output_left[..], tried, show::first_difference);
        harness.verdict.alike(SCRATCH, &expected_scratch[..], &scratch_left[..], tried, first_word);
        harness.verdict.alike(KEPT, &before, memory, tried, changed);
        (came, output_left)
    }
}

/// 1 for the working slices or the scratch, then 2, then what the plain program says of the ledger.
fn write_expected(held: &Result<Ledger, u32>, slots: usize, words: usize, output: &mut [u8]) -> Counted {
    match held {
        _ if words != SCRATCH_WORDS * slots => Counted { number: 1, count: 0 },
        Ok(ledger) => plain::write(ledger, output),
        Err(number) => Counted { number: *number, count: 0 },
    }
}

/// The first element that differs.
fn changed(expected: &Memory, came: &Memory) -> (String, String) {
    let slices = |memory: &Memory| {
        let Memory { lo, hi, up, hop } = memory.clone();
        [("lo", lo), ("hi", hi), ("up", up), ("hop", hop)]
    };
    for ((name, expected), (_, came)) in slices(expected).into_iter().zip(slices(came)) {
        if let Some(slot) = (0..expected.len()).find(|&slot| expected[slot] != came[slot]) {
            return (format!("{name}[{slot}] = {}", expected[slot]), format!("{}", came[slot]));
        }
    }
    (String::new(), "the same elements".to_string())
}

fn first_word(expected: &[u64], came: &[u64]) -> (String, String) {
    let place = expected.iter().zip(came).take_while(|(a, b)| a == b).count();
    (format!("word {place} = {:?}", expected.get(place)), format!("{:?}", came.get(place)))
}
