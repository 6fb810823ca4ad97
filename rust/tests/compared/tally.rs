//! How often each thing was seen.

use std::collections::BTreeMap;
use std::fmt;
use std::iter::Sum;
use std::ops::RangeInclusive;

use crate::support::calls::{Answer, Call};

/// Names with their counts. What is named, with 0 too, must be seen in the end.
pub struct Tally(BTreeMap<String, usize>);

impl Tally {
    /// Names each number of each range, as in `("refusal", 1..=21)`.
    pub fn demanding(ranges: &[(&str, RangeInclusive<usize>)]) -> Tally {
        let names = ranges.iter().flat_map(|(name, range)| range.clone().map(move |number| numbered(name, number)));
        Tally(names.map(|name| (name, 0)).collect())
    }

    pub fn add(&mut self, name: &str, seen: bool) {
        *self.0.entry(name.into()).or_default() += usize::from(seen);
    }

    pub fn add_answer(&mut self, call: Call, [refusal, first, ..]: Answer) {
        self.add(&format!("call {}", call.name()), true);
        match call {
            _ if refusal != 0 => self.add(&numbered("refusal", refusal), true),
            Call::Decide { .. } => self.add(&numbered("outcome", first), true),
            Call::WorkOut { .. } => self.add(&numbered("verdict", first), true),
            _ => {}
        }
    }

    pub fn demand_all(&self) {
        let missing: Vec<_> = self.0.iter().filter(|(_, count)| **count == 0).map(|(name, _)| name).collect();
        assert!(missing.is_empty(), "never seen: {missing:?}");
    }
}

fn numbered(name: &str, number: usize) -> String {
    format!("{name} {number:2}")
}

impl Sum for Tally {
    fn sum<I: Iterator<Item = Tally>>(tallies: I) -> Tally {
        let mut all = BTreeMap::new();
        for (name, count) in tallies.flat_map(|tally| tally.0) {
            *all.entry(name).or_default() += count;
        }
        Tally(all)
    }
}

impl fmt::Display for Tally {
    fn fmt(&self, formatter: &mut fmt::Formatter) -> fmt::Result {
        self.0.iter().try_for_each(|(name, count)| writeln!(formatter, "{count:9} {name}"))
    }
}
