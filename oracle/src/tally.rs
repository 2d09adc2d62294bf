//! Counts of what was compared.

use crate::ours::{differs, ours};
use crate::progress;
use sifli::claim::Broken;
use sifli::delay::Delay;
use sifli::lent::Left;
use sifli::query::Query;
use sifli::shrink::shrink;
use std::collections::{BTreeMap, HashSet};

/// Differing queries printed per group.
const SHOWN: u64 = 5;

/// 0 and document 01's refusal numbers.
pub const ANSWERS: usize = 44;

/// More than any value of a call that has few.
const VALUES: usize = 34;

/// Queries between two looks at the clock.
const QUERIES: u64 = 1024;

/// Counts of delays.
#[derive(Clone, Copy, Default)]
pub struct Delays {
    /// Those whose entry is the original's.
    pub same: u64,
    /// Those whose entry is a cycle longer.
    pub longer: u64,
}

impl Delays {
    /// # Panics
    ///
    /// Panics for an entry that is neither.
    fn count(&mut self, delay: &Delay) {
        match delay.wanted() - delay.original {
            0 => self.same += 1,
            1 => self.longer += 1,
            more => panic!("{more} cycles more than the original: {delay:?}"),
        }
    }

    fn add(&mut self, other: Delays) {
        self.same += other.same;
        self.longer += other.longer;
    }
}

/// Counts of a group or of several.
pub struct Tally {
    pub name: String,
    pub compared: u64,
    pub different: u64,
    /// How often each answer was the wanted one.
    pub answers: [u64; ANSWERS],
    /// The most entries that were wanted.
    pub entries: usize,
    /// How often each value of a call that has few was the wanted one.
    pub values: [u64; VALUES],
    /// The wanted delays, by their microseconds.
    pub delays: BTreeMap<u32, Delays>,
    /// Moments of which demand 3 was asked, and calls that broke a clause of it.
    pub moments: u64,
    pub broken: u64,
    /// What was printed.
    shown: HashSet<String>,
}

impl Tally {
    pub fn new(name: String) -> Self {
        Self {
            name,
            compared: 0,
            different: 0,
            answers: [0; ANSWERS],
            entries: 0,
            values: [0; VALUES],
            delays: BTreeMap::new(),
            moments: 0,
            broken: 0,
            shown: HashSet::new(),
        }
    }

    /// Counts a query with the wanted answer, 0 or a refusal number.
    pub fn count(&mut self, answer: u64) {
        self.compared += 1;
        if let Some(count) = self.answers.get_mut(answer as usize) {
            *count += 1;
        }
        if self.compared.is_multiple_of(QUERIES) {
            progress::show(&self.name, self.compared, self.different);
        }
    }

    /// Both sides of a query: answer word and all lent memory. Gives what the library
    /// left, and whether that is what is wanted.
    pub fn compare(&mut self, query: &Query) -> (Left, bool) {
        let (ours, wanted) = (ours(query), query.wanted());
        self.count(wanted.refusal());
        self.entries = self.entries.max(wanted.entries().len());
        if !query.call.values.is_empty() && wanted.refusal() == 0 {
            self.values[wanted.value() as usize] += 1;
        }
        for delay in &wanted.delays {
            self.delays.entry(delay.us).or_default().count(delay);
        }
        let is_alike = ours == wanted;
        if !is_alike {
            self.differ(query);
        }
        (ours, is_alike)
    }

    /// Counts a query whose answers differ, and prints the smallest one like it.
    #[cold]
    pub fn differ(&mut self, query: &Query) {
        self.different += 1;
        if self.different <= SHOWN {
            let smallest = shrink(query, differs);
            let query = smallest.query();
            let (ours, wanted) = (ours(&query), query.wanted());
            let (ours, wanted) = (wanted.beside(&ours), ours.beside(&wanted));
            self.show(format!(
                "  differs: {query}\n    wanted {wanted}\n    rikkovan {ours}"
            ));
        }
    }

    /// Counts a query as different where something does not hold of it, and prints the
    /// smallest one like it.
    pub fn hold(&mut self, query: &Query, holds: impl Fn(&Query) -> bool, broken: &str) {
        if holds(query) {
            return;
        }
        self.different += 1;
        if self.different <= SHOWN {
            let smallest = shrink(query, |query| !holds(query));
            self.show(format!("  differs: {}\n    {broken}", smallest.query()));
        }
    }

    /// Prints a text once.
    fn show(&mut self, text: String) {
        if !self.shown.contains(&text) {
            println!("{text}");
            self.shown.insert(text);
        }
    }

    /// Counts the moments of a call, and the call as different where it breaks a
    /// clause of demand 3; prints the smallest query that `asked` finds one of.
    pub fn claim(
        &mut self,
        query: &Query,
        moments: usize,
        held: Result<(), Broken>,
        asked: impl Fn(&Query) -> Result<(), Broken>,
    ) {
        self.moments += moments as u64;
        let Err(text) = held else {
            return;
        };
        self.different += 1;
        self.broken += 1;
        if self.broken <= SHOWN {
            let smallest = shrink(query, |query| asked(query).is_err());
            let query = smallest.query();
            let text = asked(&query).err().unwrap_or(text);
            self.show(format!("  breaks demand 3: {query}\n    {text}"));
        }
    }

    pub fn add(&mut self, other: &Tally) {
        self.compared += other.compared;
        self.different += other.different;
        self.entries = self.entries.max(other.entries);
        self.moments += other.moments;
        self.broken += other.broken;
        for (sum, count) in self.answers.iter_mut().zip(other.answers) {
            *sum += count;
        }
        for (sum, count) in self.values.iter_mut().zip(other.values) {
            *sum += count;
        }
        for (&us, &delays) in &other.delays {
            self.delays.entry(us).or_default().add(delays);
        }
    }
}
