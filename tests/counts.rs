//! How many cases of which kind there were, and what became of them.

use crate::generate::{Call, Case};
use std::collections::BTreeMap;

/// The functions, and the refusals that each can give.
const FUNCTIONS: [(&str, &[u64]); 5] = [
    ("read_ip", &[1, 2, 3, 4, 5, 6, 7, 8, 9, 10, 11, 16]),
    ("read_as", &[1, 2, 3, 4, 5, 8, 9, 10, 11, 16]),
    ("write", &[8, 16, 19, 20]),
    ("path", &[1, 2, 3, 4, 5, 6, 7, 8, 9, 10, 11, 12, 13, 14, 15, 16, 17, 18]),
    ("fault", &[1, 2, 3, 4, 5, 6, 7, 8, 9, 10, 11, 16]),
];

fn function_of(call: &Call) -> usize {
    match call {
        Call::ReadIp { .. } => 0,
        Call::ReadAs { .. } => 1,
        Call::Write { .. } => 2,
        Call::Path { .. } => 3,
        Call::Fault { .. } => 4,
    }
}

/// Cases by function and kind, and by function and the number returned.
#[derive(Default)]
pub struct Counts {
    kinds: [BTreeMap<&'static str, u64>; FUNCTIONS.len()],
    numbers: [BTreeMap<u64, u64>; FUNCTIONS.len()],
}

impl Counts {
    pub fn add(&mut self, case: &Case, returned: u64) {
        let function = function_of(&case.call);
        *self.kinds[function].entry(case.kind).or_default() += 1;
        *self.numbers[function].entry(returned).or_default() += 1;
    }

    /// One line: the cases of each function and kind, those accepted, those refused by number.
    pub fn summary(&self, seed: u64) -> String {
        let functions: Vec<String> = FUNCTIONS
            .iter()
            .zip(&self.kinds)
            .map(|((name, _), kinds)| format!("{name} {} ({})", total(kinds), listed(kinds, " ")))
            .collect();
        let mut numbers = BTreeMap::new();
        for (&number, &count) in self.numbers.iter().flatten() {
            *numbers.entry(number).or_default() += count;
        }
        let cases = total(&numbers);
        let accepted = numbers.remove(&0).unwrap_or(0);
        let refused = listed(&numbers, ": ");
        let functions = functions.join(", ");
        format!(
            "{cases} cases of seed {seed}, no difference: {functions}; \
             accepted {accepted}; refused {refused}"
        )
    }

    /// The refusals that a function can give and did not.
    pub fn not_seen(&self) -> Vec<String> {
        let mut missing = Vec::new();
        for ((name, reachable), seen) in FUNCTIONS.iter().zip(&self.numbers) {
            let unseen = [0].iter().chain(*reachable).filter(|number| !seen.contains_key(number));
            missing.extend(unseen.map(|number| format!("{number} of {name}")));
        }
        missing
    }
}

fn total<K>(counts: &BTreeMap<K, u64>) -> u64 {
    counts.values().sum()
}

fn listed<K: std::fmt::Display>(counts: &BTreeMap<K, u64>, between: &str) -> String {
    let each: Vec<String> = counts.iter().map(|(k, n)| format!("{k}{between}{n}")).collect();
    each.join(", ")
}
