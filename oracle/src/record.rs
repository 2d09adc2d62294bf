//! `oracle record`: calls with the original's answers, and of tasks and guarded changes
//! with those of documents 01 and 02, for a program that replays them. A file for each call, the same
//! each time.

use crate::tally::ANSWERS;
use crate::{record_change, record_config, record_head, record_lpsys, record_plan, record_tasks};
use sifli::hex;
use sifli::lent::Left;
use sifli::query::{Call, Id, Query};
use std::collections::{BTreeSet, HashSet};
use std::fs;
use std::io;
use std::path::Path;

/// Every answer of a plan check and of the readings is there at least this often.
pub const FEWEST: usize = 20;

/// What the list that a reading is lent holds before it: no frequency.
const MARK: u32 = 0xA5A5_A5A5;

/// The lines of one call: each query once, in the order they were added.
pub struct CallLines {
    pub call: &'static Call,
    seen: HashSet<String>,
    text: String,
    answers: [usize; ANSWERS],
    /// The values that came with 0.
    values: BTreeSet<usize>,
}

impl CallLines {
    fn new(call: &'static Call) -> Self {
        Self {
            call,
            seen: HashSet::new(),
            text: String::new(),
            answers: [0; ANSWERS],
            values: BTreeSet::new(),
        }
    }

    pub fn add(&mut self, query: &Query) {
        let given = query.to_string();
        if self.seen.contains(&given) {
            return;
        }
        let left = query.wanted();
        self.answers[left.refusal() as usize] += 1;
        if left.refusal() == 0 {
            self.values.insert(left.value() as usize);
        }
        let answer = answer_text(self.call, &left);
        self.text.push_str(&format!("{given} {answer}\n"));
        self.seen.insert(given);
    }

    /// A reading of bytes.
    pub fn read(&mut self, bytes: &[u8]) {
        self.add(&Query {
            plan: bytes,
            clocks: [MARK; 15],
            ..Query::on(self.call, bytes)
        });
    }

    /// A call with a plan and answers.
    pub fn planned(&mut self, head: &[u8], plan: &[u8], answers: &[u16]) {
        self.add(&Query {
            plan,
            answers,
            ..Query::on(self.call, head)
        });
    }

    /// Writes the file and prints how often each answer is there, which is at least
    /// `fewest`. Every value of a call that has few is there too.
    fn write(&self, directory: &Path, fewest: usize) -> io::Result<()> {
        let name = self.call.name;
        let lacks = |what: String| Err(io::Error::other(format!("{name}: too few answer {what}")));
        if let Some(answer) = recorded(self.call).find(|&answer| self.answers[answer] < fewest) {
            return lacks(answer.to_string());
        }
        let values = self.call.values;
        if let Some(value) = values.iter().find(|value| !self.values.contains(value)) {
            return lacks(format!("0 with {value}"));
        }
        fs::write(directory.join(format!("{name}.txt")), &self.text)?;
        println!("{name}.txt: {} lines", self.seen.len());
        for answer in recorded(self.call) {
            println!("answer {answer}: {}", self.answers[answer]);
        }
        Ok(())
    }
}

/// What stands in a line after the query: the refusal or 0; of a load check the load, of
/// a reading of a head the words of the lent list; of a call on a head the value, the
/// number of entries and of answers taken, the entries, the bytes and the clocks after it.
pub fn answer_text(call: &Call, left: &Left) -> String {
    let refusal = left.refusal();
    let clocks = hex::words(left.clocks(), 8);
    match call.id {
        Id::PlanCheck => refusal.to_string(),
        Id::LoadCheck => format!("{refusal} {}", left.value()),
        Id::ReadClocks | Id::ReadLpsys => format!("{refusal} {clocks}"),
        _ => format!(
            "{refusal} {} {} {} {} {} {clocks}",
            left.value(),
            left.entries().len(),
            left.taken(),
            hex::words(left.entries(), 8),
            hex::bytes(left.bytes()),
        ),
    }
}

/// The answers of a call that its file has. Journals that are too short and answers that
/// are too many are in none.
fn recorded(call: &Call) -> impl Iterator<Item = usize> {
    let is_recorded = |answer: &usize| !matches!(answer, 17 | 18);
    call.refusals.iter().copied().filter(is_recorded)
}

/// Writes a file for each of some calls, in which every answer is there so often.
pub fn write_calls(
    directory: &Path,
    calls: &'static [Call],
    fewest: usize,
    add: impl Fn(&mut CallLines),
) -> io::Result<()> {
    for call in calls {
        let mut list = CallLines::new(call);
        add(&mut list);
        list.write(directory, fewest)?;
    }
    Ok(())
}

pub fn run(directory: &Path) -> io::Result<()> {
    fs::create_dir_all(directory)?;
    record_plan::write(directory)?;
    record_head::write(directory)?;
    record_lpsys::write(directory)?;
    record_config::write(directory)?;
    record_tasks::write(directory)?;
    record_change::write(directory)
}
