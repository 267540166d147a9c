//! Ours and plain Rust side by side: both answer the same input alike, and then they take turns in many short rounds.
//!
//! Each side sits twice, on memory of its own. So plain Rust can be held against itself in the same way (the control),
//! and neither side's code runs more often than the other's. The order within a round is drawn anew for each.

use crate::generator::shuffle;
use crate::plain::Ledger;
use crate::side::{Seat, Side};
use crate::work::{Taker, Work};
use chance::Chance;
use doors::{Counted, Found, Memory};
use std::hint::black_box;
use std::ops::Range;
use std::time::Instant;

pub struct Seats {
    ours: [Seat<Memory>; 2],
    plain: [Seat<Ledger>; 2],
}

impl Seats {
    /// The first seats of both sides have so many slots, and the second ones so many.
    pub fn new(slots: [usize; 2], out: usize) -> Seats {
        Seats { ours: slots.map(|slots| Seat::new(slots, out)), plain: slots.map(|slots| Seat::new(slots, out)) }
    }

    /// The ledger that a list makes of an empty one, in every seat.
    pub fn load(&mut self, list: &[u8]) {
        fn load<S: Side>(seat: &mut Seat<S>, list: &[u8]) -> Counted {
            seat.side.empty();
            seat.side.update(list)
        }
        let ours = self.ours.each_mut().map(|seat| load(seat, list));
        let plain = self.plain.each_mut().map(|seat| load(seat, list));
        assert_eq!(ours, plain, "both sides load a table alike");
    }

    /// The records of the smallest table of the ledger that is held.
    pub fn count_written(&mut self) -> usize {
        self.plain[0].write().count as usize
    }

    /// Both sides take every turn of a work once, and have to answer and to write the same.
    pub fn agree(&mut self, work: &impl Work) {
        let ours = self.ours.each_mut().map(|seat| answers(work, seat));
        let plain = self.plain.each_mut().map(|seat| answers(work, seat));
        assert!(ours == plain, "both sides answer and write alike");
    }

    /// Some rounds of a work are timed.
    pub fn time(&mut self, work: &impl Work, rounds: Range<usize>, chance: &mut Chance, times: &mut Times) {
        for round in rounds {
            let turn = round % work.cycle();
            let mut order = [0, 1, 2, 3];
            shuffle(&mut order, chance);
            for seat in order {
                match seat {
                    0 | 1 => times.ours[seat].push(timed(work, &mut self.ours[seat], turn)),
                    _ => times.plain[seat - 2].push(timed(work, &mut self.plain[seat - 2], turn)),
                }
            }
        }
    }
}

/// Nanoseconds for an operation, of each seat in each round.
#[derive(Default)]
pub struct Times {
    ours: [Vec<f64>; 2],
    plain: [Vec<f64>; 2],
}

impl Times {
    /// Those of the last round: of our seats, and of plain Rust's.
    pub fn last(&self) -> [f64; 4] {
        let [first, second] = &self.ours;
        let [third, fourth] = &self.plain;
        [first, second, third, fourth].map(|times| *times.last().expect("a round was timed"))
    }
}

/// What the times say: for an operation in each seat, and how many times as long one seat takes as another in a round.
pub struct Measured {
    pub ours: [f64; 2],
    pub plain: [f64; 2],
    pub ours_to_plain: Spread,
    /// A side's second seat against its first.
    pub ours_again: Spread,
    pub plain_again: Spread,
}

impl Measured {
    pub fn of(Times { ours, plain }: Times) -> Measured {
        let ratios = |of: &[f64], to: &[f64]| -> Vec<f64> { of.iter().zip(to).map(|(a, b)| a / b).collect() };
        Measured {
            ours_to_plain: Spread::of([ratios(&ours[0], &plain[0]), ratios(&ours[1], &plain[1])].concat()),
            ours_again: Spread::of(ratios(&ours[1], &ours[0])),
            plain_again: Spread::of(ratios(&plain[1], &plain[0])),
            ours: ours.map(|times| Spread::of(times).middle),
            plain: plain.map(|times| Spread::of(times).middle),
        }
    }
}

/// The middle of many numbers, and the ends of their middle half.
#[derive(Clone, Copy)]
pub struct Spread {
    pub low: f64,
    pub middle: f64,
    pub high: f64,
}

impl Spread {
    fn of(mut numbers: Vec<f64>) -> Spread {
        numbers.sort_by(f64::total_cmp);
        let at = |quarters: usize| numbers[(numbers.len() - 1) * quarters / 4];
        Spread { low: at(1), middle: at(2), high: at(3) }
    }
}

/// One turn, in nanoseconds for an operation.
#[inline(never)]
fn timed<S: Side>(work: &impl Work, seat: &mut Seat<S>, turn: usize) -> f64 {
    work.prepare(seat, turn);
    let start = Instant::now();
    work.turn(seat, turn, &mut Unread);
    start.elapsed().as_nanos() as f64 / work.operations(turn) as f64
}

struct Unread;

impl Taker for Unread {
    fn counted(&mut self, answer: Counted) {
        black_box(answer);
    }

    fn found(&mut self, answer: Found) {
        black_box(answer);
    }

    fn written(&mut self, answer: Counted, scratch: &[u64], out: &[u8]) {
        black_box((answer, scratch, out));
    }
}

/// The answers and the written bytes of every turn of a work.
fn answers<S: Side>(work: &impl Work, seat: &mut Seat<S>) -> Answers {
    let mut answers = Answers::default();
    for turn in 0..work.cycle() {
        work.prepare(seat, turn);
        work.turn(seat, turn, &mut answers);
    }
    answers
}

#[derive(Default, PartialEq)]
struct Answers {
    counted: Vec<Counted>,
    found: Vec<Found>,
    outputs: Vec<Vec<u8>>,
}

impl Taker for Answers {
    fn counted(&mut self, answer: Counted) {
        self.counted.push(answer);
    }

    fn found(&mut self, answer: Found) {
        self.found.push(answer);
    }

    fn written(&mut self, answer: Counted, scratch: &[u64], out: &[u8]) {
        assert!(scratch.iter().all(|word| *word == 0), "a write leaves the scratch zero");
        self.counted.push(answer);
        self.outputs.push(out.to_vec());
    }
}
