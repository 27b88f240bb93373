//! The same calls put to two parties.

use crate::call::{Argument, Call, Party};
use crate::gen::{Host, Hosts};
use crate::shrink::shrink;
use std::fmt::{self, Display, Formatter};

/// What a party gave back: the number, and the call with its lent bytes after it.
pub struct Answer {
    pub returned: u32,
    pub after: Call,
    /// Whether nothing was written beside the lent slices.
    pub canaries_live: bool,
}

pub fn ask(party: &dyn Party, call: &Call) -> Answer {
    let mut after = call.clone();
    let returned = party.answer(&mut after);
    let canaries_live = after.arguments().iter().all(|argument| match argument {
        Argument::Lent(_, lent) => lent.canaries_live(),
        _ => true,
    });
    Answer {
        returned,
        after,
        canaries_live,
    }
}

/// The call must be done. Gives it with its lent bytes after it.
pub fn check_done(party: &dyn Party, call: &Call) -> Call {
    let answer = ask(party, call);
    let name = party.name();
    assert_eq!(answer.returned, 0, "{name} on\n{call}");
    assert!(answer.canaries_live, "{name} wrote beside\n{call}");
    answer.after
}

/// The call must be refused with this number, and every byte keeps its value.
pub fn check_refused(party: &dyn Party, call: &Call, number: u32) {
    let answer = ask(party, call);
    let name = party.name();
    assert_eq!(answer.returned, number, "{name} on\n{call}");
    assert!(answer.after == *call, "{name} changed bytes of\n{call}");
    assert!(answer.canaries_live, "{name} wrote beside\n{call}");
}

/// A case on which two parties differ: the last call is the one that shows it.
pub struct Mismatch {
    pub calls: Vec<Call>,
    pub differences: Vec<String>,
}

impl Display for Mismatch {
    fn fmt(&self, text: &mut Formatter) -> fmt::Result {
        writeln!(text, "the answers differ:")?;
        for call in &self.calls {
            write!(text, "\n{call}")?;
        }
        writeln!(text)?;
        for difference in &self.differences {
            writeln!(text, "    {difference}")?;
        }
        Ok(())
    }
}

/// Puts `count` calls, which follow from `seed` and the answers, to one party and
/// shows each with its answer to `observe`, which may stop.
pub fn drive<Stop>(
    party: &dyn Party,
    seed: u64,
    count: u64,
    observe: &mut dyn FnMut(&Call, &Answer) -> Result<(), Stop>,
) -> Result<(), Stop> {
    drive_host(&mut Host::new(seed), party, count, observe)
}

/// The same with the calls of any host.
fn drive_host<Stop>(
    host: &mut dyn Hosts,
    party: &dyn Party,
    count: u64,
    observe: &mut dyn FnMut(&Call, &Answer) -> Result<(), Stop>,
) -> Result<(), Stop> {
    for _ in 0..count {
        let call = host.next_call();
        let answer = ask(party, &call);
        observe(&call, &answer)?;
        if answer.returned == 0 {
            host.carry(&answer.after);
        }
    }
    Ok(())
}

/// Puts `count` calls of a host to both parties. Each call that both answered alike
/// is shown to `observe`.
pub fn compare_host(
    host: &mut dyn Hosts,
    left: &dyn Party,
    right: &dyn Party,
    count: u64,
    observe: &mut dyn FnMut(&Call, &Answer),
) -> Result<(), Mismatch> {
    let mut since_create = Vec::new();
    drive_host(host, left, count, &mut |call, answer| {
        if call.function().creates() {
            since_create.clear();
        }
        since_create.push(call.clone());
        if !differences(left, answer, right, &ask(right, call)).is_empty() {
            return Err(smallest(left, right, since_create.clone()));
        }
        observe(call, answer);
        Ok(())
    })
}

/// Compares one call that was chosen by hand.
pub fn compare_call(left: &dyn Party, right: &dyn Party, call: Call) -> Result<Answer, Mismatch> {
    let (answer, other) = (ask(left, &call), ask(right, &call));
    if differences(left, &answer, right, &other).is_empty() {
        return Ok(answer);
    }
    Err(smallest(left, right, vec![call]))
}

fn smallest(left: &dyn Party, right: &dyn Party, calls: Vec<Call>) -> Mismatch {
    let last_differences = |calls: &[Call]| {
        calls.iter().fold(Vec::new(), |_, call| {
            differences(left, &ask(left, call), right, &ask(right, call))
        })
    };
    let calls = shrink(calls, &|calls| !last_differences(calls).is_empty());
    Mismatch {
        differences: last_differences(&calls),
        calls,
    }
}

/// Every difference between two answers, and every canary that died.
fn differences(
    left: &dyn Party,
    answer: &Answer,
    right: &dyn Party,
    other: &Answer,
) -> Vec<String> {
    let mut found = Vec::new();
    let mut note = |what: &str, ours: u32, theirs: u32| {
        if ours != theirs {
            let (left, right) = (left.name(), right.name());
            found.push(format!("{what}: {left} {ours:#04x}, {right} {theirs:#04x}"));
        }
    };
    note("returned", answer.returned, other.returned);
    if answer.after != other.after {
        for_lent_bytes(&answer.after, &other.after, &mut note);
    }
    for (party, answer) in [(left, answer), (right, other)] {
        if !answer.canaries_live {
            found.push(format!("{} wrote beside a lent slice", party.name()));
        }
    }
    found
}

/// Gives every lent byte of two answers to one call, under its name and place.
fn for_lent_bytes(ours: &Call, theirs: &Call, note: &mut dyn FnMut(&str, u32, u32)) {
    let (mut ours, mut theirs) = (ours.clone(), theirs.clone());
    for pair in ours.arguments().iter().zip(&theirs.arguments()) {
        let (Argument::Lent(name, ours), Argument::Lent(_, theirs)) = pair else {
            continue;
        };
        for (place, (&our, &their)) in ours.iter().zip(theirs.iter()).enumerate() {
            note(
                &format!("{name}[{place}]"),
                u32::from(our),
                u32::from(their),
            );
        }
    }
}

#[cfg(test)]
mod tests {
    use super::*;
    use crate::call::Lent;
    use crate::model::{Paper, IMAGE_SIZE};

    #[test]
    fn a_dead_canary_is_a_difference() {
        let call = Call::Line {
            image: Lent::zeros(IMAGE_SIZE),
            value: Lent::zeros(4),
        };
        let (answer, mut other) = (ask(&Paper, &call), ask(&Paper, &call));
        assert!(differences(&Paper, &answer, &Paper, &other).is_empty());
        other.canaries_live = false;
        assert_eq!(
            differences(&Paper, &answer, &Paper, &other),
            ["model wrote beside a lent slice"]
        );
    }
}
