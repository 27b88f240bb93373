//! How often each case was reached, whatever the cases are of.

use crate::call::{Call, Function, Party};
use crate::compare::{compare_host, Answer};
use crate::gen::Hosts;
use crate::model::Paper;
use std::collections::BTreeMap;
use std::fmt::Debug;

/// Cases that random calls can reach. They are all known, and each must be
/// reached.
pub trait Reachable: Copy + Debug + Ord {
    /// The whole list.
    fn required() -> Vec<Self>;

    /// The numbers of all refusals that apply to the call, in their order and 8 with
    /// its field, found without the model's calls.
    fn applying(call: &Call) -> Vec<u32>;

    /// Gives every case that a call and its answer show to `reach`.
    fn shown(call: &Call, answer: &Answer, reach: &mut dyn FnMut(Self));

    /// The number that the call must return.
    fn number_due(call: &Call) -> u32 {
        Self::applying(call).first().copied().unwrap_or(0)
    }
}

pub struct Coverage<Thing: Reachable> {
    counts: BTreeMap<Thing, u64>,
}

impl<Thing: Reachable> Default for Coverage<Thing> {
    fn default() -> Self {
        Coverage {
            counts: BTreeMap::new(),
        }
    }
}

impl<Thing: Reachable> Coverage<Thing> {
    /// Counts what a call and its answer show.
    pub fn observe(&mut self, call: &Call, answer: &Answer) {
        Thing::shown(call, answer, &mut |thing| {
            *self.counts.entry(thing).or_default() += 1;
        });
    }

    /// Every case of the list was reached, and no case that is not in it. Tells
    /// the one that was reached least often.
    pub fn must_be_whole(&self, seed: u64) {
        let required = Thing::required();
        let count = |thing: &Thing| self.counts.get(thing).copied().unwrap_or(0);
        let rarest = required.iter().min_by_key(|thing| count(thing));
        println!(
            "seed {seed}: rarest {:?}",
            rarest.map(|thing| (thing, count(thing)))
        );
        let missing: Vec<&Thing> = required.iter().filter(|thing| count(thing) == 0).collect();
        assert!(missing.is_empty(), "seed {seed}: not reached: {missing:?}");
        let mut unlisted: Vec<&Thing> = self.counts.keys().collect();
        unlisted.retain(|thing| !required.contains(thing));
        assert!(
            unlisted.is_empty(),
            "seed {seed}: not in the list: {unlisted:?}"
        );
    }
}

/// Puts so many calls of the host to the model and to the party: they must agree,
/// each answer must be the number that is due, a refused call must change nothing,
/// and every case be reached.
pub fn compare_and_cover<Thing: Reachable>(
    host: &mut dyn Hosts,
    party: &dyn Party,
    seed: u64,
    calls: u64,
) {
    let mut coverage = Coverage::<Thing>::default();
    let outcome = compare_host(host, &Paper, party, calls, &mut |call, answer| {
        assert_eq!(
            answer.returned,
            Thing::number_due(call),
            "refusal of\n{call}"
        );
        let stays = answer.returned == 0 || answer.after == *call;
        assert!(stays, "changed by a refused\n{call}");
        coverage.observe(call, answer);
    });
    if let Err(mismatch) = outcome {
        panic!("seed {seed}: {mismatch}");
    }
    coverage.must_be_whole(seed);
}

/// What is seen of the numbers that calls return on bytes with a table of fields
/// of their own.
#[derive(Clone, Copy, Debug, PartialEq, Eq, PartialOrd, Ord)]
pub enum Numbered {
    /// A call returned this number, the field of 8 left out.
    Returned(Function, u32),
    /// The first refusal was given though the second applied as well.
    Outranked(Function, u32, u32),
    /// 8 was given with this field, and no other was broken.
    Field(usize),
    /// .. and with others broken behind it.
    FieldOfSome,
}

impl Numbered {
    /// Gives what the number of an answer shows to `reach`, as a case of the thing,
    /// where these fields were broken.
    pub(super) fn shown<Thing: Reachable>(
        call: &Call,
        answer: &Answer,
        broken: &[usize],
        case: fn(Numbered) -> Thing,
        reach: &mut dyn FnMut(Thing),
    ) {
        let function = call.function();
        let refusal = |number: u32| number & 0xFF;
        let mut reach = |numbered: Numbered| reach(case(numbered));
        reach(Numbered::Returned(function, refusal(answer.returned)));
        let applying = Thing::applying(call);
        let Some((&first, others)) = applying.split_first() else {
            return;
        };
        for &other in others {
            reach(Numbered::Outranked(
                function,
                refusal(first),
                refusal(other),
            ));
        }
        if refusal(first) == 8 {
            reach(match broken {
                [alone] => Numbered::Field(*alone),
                _ => Numbered::FieldOfSome,
            });
        }
    }

    /// Of one call: done, each of its refusals, and each pair of these.
    pub(super) fn of_call(
        function: Function,
        refusals: &[u32],
        pairs: &[(u32, u32)],
    ) -> Vec<Numbered> {
        let mut required = vec![Numbered::Returned(function, 0)];
        required.extend(
            refusals
                .iter()
                .map(|&number| Numbered::Returned(function, number)),
        );
        let outranked =
            |&(first, second): &(u32, u32)| Numbered::Outranked(function, first, second);
        required.extend(pairs.iter().map(outranked));
        required
    }
}

/// The number of `size` bytes, the most significant first.
pub(super) fn number(bytes: &[u8], at: usize, size: usize) -> u64 {
    bytes[at..at + size]
        .iter()
        .fold(0, |number, &byte| number << 8 | u64::from(byte))
}

#[cfg(test)]
mod tests {
    use super::*;
    use crate::call::Lent;
    use std::panic::catch_unwind;

    #[derive(Clone, Copy, Debug, PartialEq, Eq, PartialOrd, Ord)]
    struct Short(u64);

    impl Reachable for Short {
        fn required() -> Vec<Short> {
            vec![Short(0), Short(1)]
        }

        fn applying(_call: &Call) -> Vec<u32> {
            Vec::new()
        }

        fn shown(_call: &Call, answer: &Answer, reach: &mut dyn FnMut(Short)) {
            reach(Short(u64::from(answer.returned)));
        }
    }

    /// Whether the coverage of calls that returned these numbers is whole.
    fn is_whole(numbers: &'static [u32]) -> bool {
        let whole = catch_unwind(|| {
            let mut coverage = Coverage::<Short>::default();
            for &returned in numbers {
                let after = Call::Line {
                    image: Lent::zeros(0),
                    value: Lent::zeros(0),
                };
                let answer = Answer {
                    returned,
                    after: after.clone(),
                    canaries_live: true,
                };
                coverage.observe(&after, &answer);
            }
            coverage.must_be_whole(0);
        });
        whole.is_ok()
    }

    #[test]
    fn a_case_not_reached_and_one_not_listed_are_noticed() {
        assert!(is_whole(&[0, 1, 1]));
        assert!(!is_whole(&[1]));
        assert!(!is_whole(&[0, 1, 2]));
    }
}
