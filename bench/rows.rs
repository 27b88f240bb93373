//! The tables in which a call of the library stands against the model's.

use super::{agreed, least_of_both, missed};
use harness::call::{Call, Party};

/// What the rows of a table have in common.
pub struct Rows {
    /// The library may take so many times as long as the model.
    pub aim: f64,
    /// A call that is too short to time is made so many times at once.
    pub at_once: u32,
    /// The times are shown in such parts of a second.
    pub parts: f64,
}

/// The heading of a table, with the columns that it has beside those of every row.
pub fn heading(title: &str, more: &str) {
    println!("\n{title}\n");
    println!(
        "{:<31}{:>15}{:>7}{:>16}{:>5}{more}",
        "", "library", "model", "x model", "aim"
    );
}

impl Rows {
    /// A row of these times, in seconds.
    pub fn shown(&self, name: &str, ours: f64, models: f64) -> String {
        let ratio = ours / models;
        let [ours, models] = [ours, models].map(|seconds| seconds * self.parts);
        format!(
            "{name:<31}{ours:>15.1}{models:>7.1}{ratio:>16.2}{:>5.1}",
            self.aim
        )
    }

    /// Whether such times meet the aim, under the name of its column.
    pub fn is_met(&self, ours: f64, models: f64) -> (&'static str, bool) {
        ("x model", ours / models <= self.aim)
    }

    /// Measures each call, and prints its row.
    pub fn compare<const N: usize>(&self, library: &dyn Party, calls: [(&str, Call); N]) {
        for (name, call) in calls {
            agreed(library, name, &call);
            let [ours, models] = least_of_both(library, &call, self.at_once);
            let missed = missed(&[self.is_met(ours, models)]);
            println!("{}{missed}", self.shown(name, ours, models));
        }
    }
}
