//! What is looked at before anything is timed: nobody may be fast by being wrong.

use crate::cases::{Call, Case};
use crate::sides::{Lent, Side};

/// Holds the answers of all three to the case: all accept, this library and the plain
/// implementation leave the same reply and the same in every buffer, what is written is the value,
/// and all refuse what is to be refused.
pub fn check(case: &Case) -> Result<(), String> {
    let wrong = |what: &str| Err(format!("{:?}, {}: {what}", case.group, case.name));
    if answers(&case.call, true).is_none() {
        return wrong("not the same accepted answer from all three");
    }
    match &case.refused {
        Some(refused) if answers(refused, false).is_none() => {
            wrong("what is to be refused is not, or not in the same way")
        }
        _ => Ok(()),
    }
}

/// Nothing, if an answer is not as it must be.
fn answers(call: &Call, accepted: bool) -> Option<()> {
    let mut after = Vec::new();
    for side in Side::ALL {
        let mut lent = Lent::new();
        let answer = side.function()(call, &mut lent);
        let written = match call {
            Call::Write { value, .. } => lent.out.starts_with(value),
            _ => true,
        };
        if answer != accepted || !written {
            return None;
        }
        after.push(lent);
    }
    match &after[..] {
        [ours, plain, _] if ours == plain => Some(()),
        _ => None,
    }
}
