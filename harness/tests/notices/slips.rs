//! Deliberate errors. Each is the model with one rule replaced by a wrong one;
//! all its other rules stay the paper's.

use harness::call::Party;
use harness::model::{ImageRule, Images};

/// Takes the rules of every other trait as they stand in the paper.
macro_rules! paper_otherwise {
    (Windows for $model:ident) => {
        paper_otherwise!(Registers, Descriptors, Slots, Ledgers, Findings, Chains, Mends, Steps, Images, Editions, Controllers, Timers, Calls: $model);
    };
    (Registers for $model:ident) => {
        paper_otherwise!(Windows, Descriptors, Slots, Ledgers, Findings, Chains, Mends, Steps, Images, Editions, Controllers, Timers, Calls: $model);
    };
    (Descriptors for $model:ident) => {
        paper_otherwise!(Windows, Registers, Slots, Ledgers, Findings, Chains, Mends, Steps, Images, Editions, Controllers, Timers, Calls: $model);
    };
    (Slots for $model:ident) => {
        paper_otherwise!(Windows, Registers, Descriptors, Ledgers, Findings, Chains, Mends, Steps, Images, Editions, Controllers, Timers, Calls: $model);
    };
    (Ledgers for $model:ident) => {
        paper_otherwise!(Windows, Registers, Descriptors, Slots, Findings, Chains, Mends, Steps, Images, Editions, Controllers, Timers, Calls: $model);
    };
    (Findings for $model:ident) => {
        paper_otherwise!(Windows, Registers, Descriptors, Slots, Ledgers, Chains, Mends, Steps, Images, Editions, Controllers, Timers, Calls: $model);
    };
    (Chains for $model:ident) => {
        paper_otherwise!(Windows, Registers, Descriptors, Slots, Ledgers, Findings, Mends, Steps, Images, Editions, Controllers, Timers, Calls: $model);
    };
    (Mends for $model:ident) => {
        paper_otherwise!(Windows, Registers, Descriptors, Slots, Ledgers, Findings, Chains, Steps, Images, Editions, Controllers, Timers, Calls: $model);
    };
    (Steps for $model:ident) => {
        paper_otherwise!(Windows, Registers, Descriptors, Slots, Ledgers, Findings, Chains, Mends, Images, Editions, Controllers, Timers, Calls: $model);
    };
    (Images for $model:ident) => {
        paper_otherwise!(Windows, Registers, Descriptors, Slots, Ledgers, Findings, Chains, Mends, Steps, Editions, Controllers, Timers, Calls: $model);
    };
    (Editions for $model:ident) => {
        paper_otherwise!(Windows, Registers, Descriptors, Slots, Ledgers, Findings, Chains, Mends, Steps, Images, Controllers, Timers, Calls: $model);
    };
    (Calls for $model:ident) => {
        paper_otherwise!(Windows, Registers, Descriptors, Slots, Ledgers, Findings, Chains, Mends, Steps, Images, Editions, Controllers, Timers: $model);
    };
    (Controllers for $model:ident) => {
        paper_otherwise!(Windows, Registers, Descriptors, Slots, Ledgers, Findings, Chains, Mends, Steps, Images, Editions, Timers, Calls: $model);
    };
    (Timers for $model:ident) => {
        paper_otherwise!(Windows, Registers, Descriptors, Slots, Ledgers, Findings, Chains, Mends, Steps, Images, Editions, Controllers, Calls: $model);
    };
    ($($rules:ident),*: $model:ident) => {
        $(impl harness::model::$rules for $model {})*
    };
}

/// A function with these arguments and this body.
macro_rules! function {
    (($($argument:ident: $type:ty),* $(,)?) -> $answer:ty, $body:block) => {
        |$($argument: $type),*| -> $answer { $body }
    };
}

/// Lets the right thing happen but for one field, which keeps what it had.
macro_rules! keeping {
    ($($field:ident).+, $right:expr) => {
        let before = $($field).+;
        $right;
        $($field).+ = before;
    };
}

/// Adds to `$slips` a model for each wrong body of one rule.
macro_rules! replace_rule {
    ($slips:ident, $rules:ident, $rule:ident
     ($($argument:ident: $type:ty),* $(,)?) -> $answer:ty, [$($slip:tt)*]) => {{
        #[derive(Clone, Copy)]
        struct Replaced(fn($($type),*) -> $answer);

        impl $rules for Replaced {
            fn $rule(self, $($argument: $type),*) -> $answer {
                (self.0)($($argument),*)
            }
        }

        paper_otherwise!($rules for Replaced);

        let wrong_rules: &[(&str, fn($($type),*) -> $answer)] = &[$($slip)*];
        for &(text, wrong_rule) in wrong_rules {
            $slips.push((text.to_owned(), Box::new(Replaced(wrong_rule))));
        }
    }};
}

/// Gives all the errors of one trait: for each rule its head, and its wrong
/// bodies under their descriptions.
macro_rules! slips {
    ($rules:ident; $(
        $rule:ident $arguments:tt -> $answer:ty { $($text:literal => $body:block)* }
    )*) => {
        #[allow(unused_variables)]
        pub fn slips() -> Vec<Slip> {
            let mut slips: Vec<Slip> = Vec::new();
            $(
                replace_rule!(
                    slips, $rules, $rule $arguments -> $answer,
                    [$(($text, function!($arguments -> $answer, $body)),)*]
                );
            )*
            slips
        }
    };
}

mod calls;
pub mod chains;
pub mod controllers;
mod descriptors;
pub mod editions;
pub mod findings;
mod images;
mod ledgers;
pub mod mends;
mod registers;
mod slots;
mod steps;
pub mod timers;
mod windows;

/// An error under its description.
pub type Slip = (String, Box<dyn Party>);

/// All deliberate errors.
pub fn all() -> Vec<Slip> {
    [
        windows::slips(),
        registers::slips(),
        descriptors::slips(),
        slots::slips(),
        ledgers::slips(),
        steps::slips(),
        images::slips(),
        calls::slips(),
        of_each_rule("is overlooked", Overlooks),
        of_each_rule("counts against the next field", CountsAgainstNext),
    ]
    .into_iter()
    .flatten()
    .collect()
}

/// The error of not looking at one image rule.
#[derive(Clone, Copy)]
struct Overlooks(ImageRule);

impl Images for Overlooks {
    fn overlooks(self, rule: ImageRule) -> bool {
        self.0 == rule
    }
}

paper_otherwise!(Images for Overlooks);

/// The error of telling a field behind the one that an image rule counts against.
#[derive(Clone, Copy)]
struct CountsAgainstNext(ImageRule);

impl Images for CountsAgainstNext {
    fn field_of(self, rule: ImageRule) -> u8 {
        rule.field() + u8::from(self.0 == rule)
    }
}

paper_otherwise!(Images for CountsAgainstNext);

/// One such error for every image rule.
fn of_each_rule<Model: Party + 'static>(error: &str, model: fn(ImageRule) -> Model) -> Vec<Slip> {
    let slip = |rule| -> Slip {
        let text = format!("the image rule {rule:?} {error}");
        (text, Box::new(model(rule)))
    };
    ImageRule::ALL.map(slip).into()
}
