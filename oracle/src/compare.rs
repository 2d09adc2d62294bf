//! `oracle compare`: librikkovan.a against the original code, and its tasks, guarded
//! change, reading of fit and moments against documents 01 and 02.

use crate::groups::{Report, counts, print_tables};
use crate::tally::Tally;
use crate::{
    compare_booking, compare_change, compare_config, compare_fit, compare_head, compare_lists,
    compare_load, compare_lpsys, compare_moment, compare_plan, progress,
};
use sifli::random::Random;

/// What is compared, by the names that `--only` takes.
pub const PARTS: [&str; 6] = ["plan", "heads", "lpsys", "config", "tasks", "change"];

/// How much is compared.
#[derive(Clone, Copy)]
pub struct Extent {
    /// A bounded part.
    pub quick: bool,
    /// The queries of each random group; by itself each has its own number.
    pub count: Option<u64>,
    /// Each random group goes on for so many seconds at least.
    pub seconds: u64,
    /// What all random groups are drawn from.
    pub seed: u64,
    /// Only the tables are printed, and what differs.
    pub is_table: bool,
}

impl Default for Extent {
    fn default() -> Self {
        Self {
            quick: false,
            count: None,
            seconds: 0,
            seed: 0x5EED,
            is_table: false,
        }
    }
}

impl Extent {
    /// Random numbers of a group, which its name tells from those of others.
    pub fn random(&self, group: &str) -> Random {
        let mixed = group.bytes().fold(self.seed, |sum, byte| {
            (sum ^ u64::from(byte)).wrapping_mul(0x0100_0000_01B3)
        });
        Random::new(mixed)
    }

    /// A name for comparisons of the same size.
    fn name(&self, only: &[&str]) -> String {
        let kind = if self.quick { "quick" } else { "full" };
        let count = self.count.map_or(String::new(), |count| count.to_string());
        format!("compare-{kind}-{count}-{}-{}", self.seconds, only.join("-"))
    }
}

/// Compares the groups of the named parts, of all where none is named, and gives
/// the number of differences.
pub fn run(extent: Extent, only: &[&str]) -> u64 {
    println!("seed {}", extent.seed);
    progress::begin(&extent.name(only));
    let mut reports = Vec::new();
    for part in PARTS {
        if only.is_empty() || only.contains(&part) {
            reports.extend(part_of(part, extent));
        }
    }
    progress::end();
    print_tables(&reports);
    let mut total = Tally::new(String::new());
    for report in &reports {
        total.add(&report.systematic);
        total.add(&report.random);
        total.different += report.missing.len() as u64;
    }
    println!("\ntotal: {}", counts(&total));
    total.different
}

fn part_of(part: &str, extent: Extent) -> Vec<Report> {
    match part {
        "plan" => vec![compare_plan::run(extent)],
        "heads" => vec![
            compare_head::run(extent),
            compare_fit::run(extent),
            compare_moment::run(extent),
        ],
        "lpsys" => compare_lpsys::run(extent),
        "config" => compare_config::run(extent),
        "tasks" => vec![
            compare_load::run(extent),
            compare_booking::book(extent),
            compare_booking::release(extent),
            compare_booking::look_up(extent),
        ],
        _ => vec![compare_change::run(extent), compare_lists::run(extent)],
    }
}
