//! How long the calls take.

use crate::cases::{Case, Group};
use crate::clock;
use crate::sides::{Lent, Side};
use crate::tests::plain::TABLE;
use std::arch::asm;
use std::time::Duration;

/// How long a batch of equal calls takes, at least; at most about twice that.
const BATCH: Duration = Duration::from_millis(1);

/// What was measured.
pub struct Times {
    pub rounds: usize,
    pub cases: Vec<CaseTimes>,
    /// Clearing one table and nothing else, as a reader must.
    pub clearing_one: Samples,
    /// Clearing two tables and nothing else, as a path check must.
    pub clearing_two: Samples,
}

/// The times of a case, one for each side in their order.
pub struct CaseTimes {
    pub group: Group,
    pub name: String,
    pub rows: usize,
    pub sides: [Samples; 3],
}

/// Nanoseconds for a call, one number for each round.
#[derive(Clone, Default)]
pub struct Samples(Vec<f64>);

impl Times {
    pub fn of(&self, group: Group) -> impl Iterator<Item = &CaseTimes> {
        self.cases.iter().filter(move |case| case.group == group)
    }
}

impl CaseTimes {
    /// The median for a side.
    pub fn median(&self, side: Side) -> f64 {
        self.sides[side as usize].median()
    }
}

impl Samples {
    pub fn median(&self) -> f64 {
        self.part(0.5)
    }

    /// How far the middle half of the rounds reaches from the median, as a part of it.
    pub fn spread(&self) -> f64 {
        let median = self.median();
        (median - self.part(0.25)).max(self.part(0.75) - median) / median
    }

    /// The sample that has this part of all samples below it.
    fn part(&self, part: f64) -> f64 {
        let mut sorted = self.0.clone();
        sorted.sort_by(f64::total_cmp);
        let place = part * (sorted.len() - 1) as f64;
        let (below, above) = (sorted[place.floor() as usize], sorted[place.ceil() as usize]);
        below + (above - below) * place.fract()
    }
}

/// Measures every case on every side in each round. In a round the three take turns at a case,
/// and each of them is the first, the second and the third in turn. All are lent the same buffers.
pub fn measure(cases: &[Case], rounds: usize) -> Times {
    let mut lent = Lent::new();
    let mut clearing = [Batch::new(clear_one, &mut lent), Batch::new(clear_two, &mut lent)];
    let mut batches: Vec<[Batch; 3]> =
        cases.iter().map(|case| Side::ALL.map(|side| Batch::of(case, side, &mut lent))).collect();
    for round in 0..rounds {
        clearing.iter_mut().for_each(|batch| batch.run(&mut lent));
        for sides in &mut batches {
            for turn in 0..sides.len() {
                sides[(round + turn) % sides.len()].run(&mut lent);
            }
        }
    }
    let cases = cases.iter().zip(batches).map(|(case, sides)| CaseTimes {
        group: case.group,
        name: case.name.clone(),
        rows: case.rows,
        sides: sides.map(|batch| batch.samples),
    });
    let [clearing_one, clearing_two] = clearing.map(|batch| batch.samples);
    Times { rounds, cases: cases.collect(), clearing_one, clearing_two }
}

/// Makes so many calls.
type Calls<'a> = Box<dyn Fn(u32, &mut Lent) + 'a>;

/// Equal calls that are timed together.
struct Batch<'a> {
    calls: Calls<'a>,
    count: u32,
    samples: Samples,
}

impl<'a> Batch<'a> {
    /// As many calls as it takes to fill the time of a batch.
    fn new(calls: impl Fn(u32, &mut Lent) + 'a, lent: &mut Lent) -> Batch<'a> {
        let mut batch = Batch { calls: Box::new(calls), count: 1, samples: Samples::default() };
        while batch.time(lent) < BATCH {
            batch.count *= 2;
        }
        batch
    }

    fn of(case: &'a Case, side: Side, lent: &mut Lent) -> Batch<'a> {
        let function = side.function();
        let calls = move |count, lent: &mut Lent| {
            for _ in 0..count {
                black_box(function(black_box(&case.call), lent));
            }
        };
        Batch::new(calls, lent)
    }

    /// Takes a sample, after a call that warms up.
    fn run(&mut self, lent: &mut Lent) {
        (self.calls)(1, lent);
        let time = self.time(lent).as_secs_f64();
        self.samples.0.push(time * 1e9 / self.count as f64);
    }

    fn time(&self, lent: &mut Lent) -> Duration {
        let start = clock::now();
        (self.calls)(self.count, lent);
        clock::now() - start
    }
}

/// The value, of which the compiler knows nothing any more. (`std::hint` has it from 1.66 on.)
fn black_box<T>(mut value: T) -> T {
    // SAFETY: there is no instruction. The compiler must take it that all memory was changed.
    unsafe { asm!("/* {0} */", in(reg) &mut value as *mut T, options(nostack, preserves_flags)) };
    value
}

fn clear_one(count: u32, lent: &mut Lent) {
    for _ in 0..count {
        black_box(&mut lent.first)[..TABLE].fill(0);
    }
}

fn clear_two(count: u32, lent: &mut Lent) {
    for _ in 0..count {
        black_box(&mut lent.first)[..TABLE].fill(0);
        black_box(&mut lent.second)[..TABLE].fill(0);
    }
}
