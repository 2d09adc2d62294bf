//! The groups of queries of each call, and the tables of what they counted.

use crate::compare::Extent;
use crate::progress;
use crate::tally::{Delays, Tally};
use sifli::random::Random;
use std::collections::BTreeMap;
use std::time::{Duration, Instant};

/// The groups of one call: each is compared, printed and added.
pub struct Groups {
    extent: Extent,
    report: Report,
}

/// What was compared of a call.
pub struct Report {
    call: &'static str,
    /// What the call is held to.
    rule: &'static str,
    pub systematic: Tally,
    pub random: Tally,
    /// Answers that the call can give, values, and microseconds of delays that never came.
    pub missing: Vec<usize>,
}

/// Random queries of a group in the full and in the quick run, where no number is
/// asked for.
pub struct Number {
    full: u64,
    quick: u64,
}

impl Number {
    pub const fn new(full: u64, quick: u64) -> Self {
        Self { full, quick }
    }
}

impl Groups {
    /// A call that is held to the original code.
    pub fn of_original(call: &'static str, extent: Extent) -> Self {
        Self::new(call, "the Rust", extent)
    }

    /// A call that is held to document 01.
    pub fn ruled(call: &'static str, extent: Extent) -> Self {
        Self::new(call, "document 01", extent)
    }

    /// A call that is held to document 02.
    pub fn requested(call: &'static str, extent: Extent) -> Self {
        Self::new(call, "document 02", extent)
    }

    fn new(call: &'static str, rule: &'static str, extent: Extent) -> Self {
        let report = Report {
            call,
            rule,
            systematic: Tally::new(String::new()),
            random: Tally::new(String::new()),
            missing: Vec::new(),
        };
        Self { extent, report }
    }

    /// A systematic group.
    pub fn group(&mut self, name: &str, compare: impl FnOnce(&mut Tally)) {
        let tally = self.tally(name, compare);
        self.report.systematic.add(&tally);
    }

    /// A random group: draws until it has as many queries as are asked for, and goes
    /// on as long as is asked for.
    pub fn random(
        &mut self,
        name: &str,
        number: Number,
        mut draw: impl FnMut(&mut Tally, &mut Random),
    ) {
        let Extent { quick, seconds, .. } = self.extent;
        let usual = if quick { number.quick } else { number.full };
        let number = self.extent.count.unwrap_or(usual);
        let mut random = self.extent.random(&format!("{}, {name}", self.report.call));
        let began = Instant::now();
        let least = Duration::from_secs(seconds);
        let tally = self.tally(name, |tally| {
            while tally.compared < number || seconds > 0 && began.elapsed() < least {
                draw(tally, &mut random);
            }
        });
        self.report.random.add(&tally);
    }

    fn tally(&self, name: &str, compare: impl FnOnce(&mut Tally)) -> Tally {
        let mut tally = Tally::new(format!("{}, {name}", self.report.call));
        compare(&mut tally);
        progress::add(tally.compared, tally.different);
        if !self.extent.is_table {
            let Tally { name, .. } = &tally;
            println!("{name}: {}", counts(&tally));
        }
        tally
    }

    /// The sums, with a look at whether each of some answers came.
    pub fn finish(self, answers: &[usize]) -> Report {
        let mut report = self.report;
        let came =
            |&answer: &usize| report.systematic.answers[answer] + report.random.answers[answer] > 0;
        report.missing = answers.iter().copied().filter(|a| !came(a)).collect();
        for answer in &report.missing {
            println!("  differs: {} never answered {answer}", report.call);
        }
        report
    }
}

impl Report {
    /// The same with a look at whether each of some values came.
    pub fn with_values(mut self, values: &[usize]) -> Self {
        for &value in values {
            if self.systematic.values[value] + self.random.values[value] == 0 {
                println!("  differs: {} never had the value {value}", self.call);
                self.missing.push(value);
            }
        }
        self
    }

    /// The same with a look at whether delays of so many microseconds came, some with the
    /// original's cycles and some a cycle longer.
    pub fn with_delays(mut self, microseconds: &[u32]) -> Self {
        let delays = self.delays();
        for us in microseconds {
            let Delays { same, longer } = delays.get(us).copied().unwrap_or_default();
            if same == 0 || longer == 0 {
                let counts = format!("{same} as the original's and {longer} a cycle longer");
                println!("  differs: {} had of {us} us {counts}", self.call);
                self.missing.push(*us as usize);
            }
        }
        self
    }

    /// The delays of all groups, by their microseconds.
    fn delays(&self) -> BTreeMap<u32, Delays> {
        let mut sum = Tally::new(String::new());
        sum.add(&self.systematic);
        sum.add(&self.random);
        sum.delays
    }
}

/// Prints a table of the systematic groups, one of the random ones, and one of the delays in both.
pub fn print_tables(reports: &[Report]) {
    print_table("Systematic groups", reports, |report| &report.systematic);
    print_table("Random groups", reports, |report| &report.random);
    if reports.iter().any(|report| !report.delays().is_empty()) {
        print_delays(reports);
    }
}

fn print_delays(reports: &[Report]) {
    println!("\n## Delays\n");
    println!(
        "Held to document 02: \"The cycles are now rounded up.\" All other entries are held as above.\n"
    );
    println!("| call | us | entries | of them as the Rust's | a cycle longer |");
    println!("|---|---|---|---|---|");
    for report in reports {
        for (us, Delays { same, longer }) in report.delays() {
            let [all, same, longer] = [same + longer, same, longer].map(grouped);
            println!("| {} | {us} | {all} | {same} | {longer} |", report.call);
        }
    }
}

fn print_table(title: &str, reports: &[Report], pick: impl Fn(&Report) -> &Tally) {
    println!("\n## {title}\n");
    println!(
        "| call | held to | queries | different | most entries | answers: 0 done, else the refusal number |"
    );
    println!("|---|---|---|---|---|---|");
    let mut sum = Tally::new(String::new());
    let has_queries = |report: &&Report| pick(report).compared > 0;
    for report in reports.iter().filter(has_queries) {
        let tally = pick(report);
        let entries = match tally.entries {
            0 => String::new(),
            entries => entries.to_string(),
        };
        println!(
            "| {} | {} | {} | {} | {entries} | {} |",
            report.call,
            report.rule,
            grouped(tally.compared),
            grouped(tally.different),
            counted(&tally.answers)
        );
        sum.add(tally);
    }
    let (compared, different) = (grouped(sum.compared), grouped(sum.different));
    println!("| all | | {compared} | {different} | | |");
    for report in reports {
        let values = counted(&pick(report).values);
        if !values.is_empty() {
            println!("\nA done `{}` had as its value: {values}.", report.call);
        }
    }
    if sum.moments > 0 {
        println!(
            "\nDemand 3 was asked at {} moments; {} calls break it.",
            grouped(sum.moments),
            grouped(sum.broken)
        );
    }
}

pub fn counts(tally: &Tally) -> String {
    let (compared, different) = (grouped(tally.compared), grouped(tally.different));
    format!("{compared} compared, {different} different")
}

/// How often each number was counted that was.
fn counted(counts: &[u64]) -> String {
    let counted = |number: usize| format!("{number}: {}", grouped(counts[number]));
    let came = (0..counts.len()).filter(|&number| counts[number] > 0);
    came.map(counted).collect::<Vec<_>>().join("; ")
}

/// A number with a comma before each three digits.
fn grouped(number: u64) -> String {
    let digits = number.to_string();
    let mut text = String::new();
    for (place, digit) in digits.chars().enumerate() {
        if place > 0 && (digits.len() - place).is_multiple_of(3) {
            text.push(',');
        }
        text.push(digit);
    }
    text
}
