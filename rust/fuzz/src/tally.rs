//! How often each call was accepted, and refused with each number.

use std::collections::BTreeMap;
use std::fmt;

/// How often each of the numbers 0 to 6 was given.
pub type Counts = [usize; 7];

/// The counts of each function.
#[derive(Default)]
pub struct Tally(BTreeMap<String, Counts>);

impl Tally {
    pub fn add(&mut self, name: String, number: u32) {
        self.0.entry(name).or_default()[number as usize] += 1;
    }

    pub fn calls(&self) -> impl Iterator<Item = (&str, Counts)> {
        self.0.iter().map(|(name, counts)| (name.as_str(), *counts))
    }

    fn total(&self) -> Counts {
        let mut total = Counts::default();
        for (_, counts) in self.calls() {
            total
                .iter_mut()
                .zip(counts)
                .for_each(|(sum, count)| *sum += count);
        }
        total
    }
}

/// A line: all calls, then those accepted and those refused with each number.
fn line(f: &mut fmt::Formatter<'_>, name: &str, counts: Counts) -> fmt::Result {
    let [accepted, refused @ ..] = counts;
    let all: usize = counts.iter().sum();
    write!(f, "{name}: {all}, accepted {accepted}, refused")?;
    for (number, count) in (1..).zip(refused) {
        write!(
            f,
            "{} {count} with {number}",
            if number > 1 { "," } else { "" }
        )?;
    }
    writeln!(f)
}

impl fmt::Display for Tally {
    fn fmt(&self, f: &mut fmt::Formatter<'_>) -> fmt::Result {
        for (name, counts) in self.calls() {
            line(f, name, counts)?;
        }
        line(f, "fuzz", self.total())
    }
}
