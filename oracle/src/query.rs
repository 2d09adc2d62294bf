//! Queries: a call with all that it is given, as a value and as a line.

use crate::call::Frequencies;
use crate::calls::CALLS;
use crate::hex;
use crate::lent::{Left, Lent, numbered};
use std::fmt::{self, Debug, Display, Formatter};
use std::ops::RangeInclusive;

/// The words of a journal where nothing is tested about them, and of one whose
/// length is not in a line.
pub const JOURNAL: usize = 128;

/// The calls of librikkovan.a.
#[derive(Clone, Copy, PartialEq, Eq, Debug)]
pub enum Id {
    PlanCheck,
    ReadClocks,
    ReadLpsys,
    Request,
    Safe,
    Wake,
    Cancel,
    Hxt48,
    Hdiv,
    Div,
    Mac,
    Sysclk,
    Peri,
    Calibrate,
    Init,
    Reconfigure,
    LoadCheck,
    Book,
    Release,
    LookUp,
    Change,
    ReadFit,
    Moment,
}

/// A call, and what it is lent.
pub struct Call {
    pub id: Id,
    /// Its name in lines.
    pub name: &'static str,
    /// Its name without `rikkovan_`.
    pub function: &'static str,
    pub arguments: &'static [Argument],
    /// A plan, or the bytes of entries.
    pub is_lent_plan: bool,
    /// A head's buffer, or a list of tasks.
    pub is_lent_bytes: bool,
    pub clocks: Clocks,
    pub is_lent_journal: bool,
    pub is_lent_answers: bool,
    /// 0 and the refusals that it has.
    pub refusals: &'static [usize],
    /// The values of a done call that has few.
    pub values: &'static [usize],
    /// The microseconds of its delays.
    pub delays: &'static [u32],
    /// What it answers and leaves: by the original code where that has the call,
    /// else by document 01.
    pub wanted: Side,
}

/// One side of a call: writes what is lent, and gives the answer word.
pub type Side = fn(&Query, Lent) -> u64;

/// The clocks lent to a call.
#[derive(Clone, Copy, PartialEq, Eq)]
pub enum Clocks {
    None,
    /// So many, which a reading writes where it is not refused.
    Read(usize),
    /// Written: all none on a refusal.
    Written,
    /// The former ones, which stay on a refusal.
    Former,
}

/// An argument's values.
pub struct Argument {
    /// The largest that its type holds.
    pub largest: u32,
    /// Those that are drawn more often than others.
    pub often: RangeInclusive<u32>,
    /// Those at both sides of each turn.
    pub ends: &'static [u32],
}

/// A call with all that it is given; what it does not take is not looked at.
#[derive(Clone, Copy)]
pub struct Query<'a> {
    pub call: &'static Call,
    pub arguments: [u32; 3],
    pub plan: &'a [u8],
    /// What the lent clocks hold before.
    pub clocks: Frequencies,
    pub bytes: &'a [u8],
    /// The words of the lent journal.
    pub journal: usize,
    pub answers: &'a [u16],
}

impl<'a> Query<'a> {
    /// A call on a head's buffer or a list of tasks, and nothing else of note.
    pub fn on(call: &'static Call, bytes: &'a [u8]) -> Self {
        Self {
            call,
            arguments: [0; 3],
            plan: &[],
            clocks: FORMER,
            bytes,
            journal: JOURNAL,
            answers: &[],
        }
    }

    /// A plan check.
    pub fn plan(plan: &'a [u8]) -> Self {
        Self {
            plan,
            ..Self::on(call(Id::PlanCheck), &[])
        }
    }

    /// What is wanted.
    pub fn wanted(&self) -> Left {
        self.by(self.call.wanted)
    }

    /// What a side leaves.
    pub fn by(&self, side: Side) -> Left {
        let clocks = match self.call.clocks {
            Clocks::None => 0,
            Clocks::Read(number) => number,
            Clocks::Written | Clocks::Former => self.clocks.len(),
        };
        Left::by(
            self.call.is_lent_bytes.then_some(self.bytes),
            &self.clocks[..clocks],
            self.call.is_lent_journal.then_some(self.journal),
            |lent| side(self, lent),
        )
    }

    pub fn to_owned(&self) -> Owned {
        Owned {
            call: self.call,
            arguments: self.arguments,
            plan: self.plan.to_vec(),
            clocks: self.clocks,
            bytes: self.bytes.to_vec(),
            journal: self.journal,
            answers: self.answers.to_vec(),
        }
    }
}

/// Clocks that no reading gives, no two alike.
pub const FORMER: Frequencies = numbered(0xC10C_0000);

/// # Panics
///
/// Panics for a call that the table does not have; it has all.
pub fn call(id: Id) -> &'static Call {
    let call = CALLS.iter().find(|call| call.id == id);
    call.expect("a call of the table")
}

/// The front of a line in the records. Of a reading name and bytes; of a call on a head
/// name, argument, buffer, answers and clocks before it, with `-` for what it is not lent.
/// A journal that has not its usual length stands before them.
impl Display for Query<'_> {
    fn fmt(&self, f: &mut Formatter) -> fmt::Result {
        let call = self.call;
        if call.is_lent_journal && self.journal != JOURNAL {
            write!(f, "journal={} ", self.journal)?;
        }
        if call.is_reading() {
            let bytes = if call.is_lent_plan {
                self.plan
            } else {
                self.bytes
            };
            return write!(f, "{} {}", call.name, hex::bytes(bytes));
        }
        let argument = hex::bytes(&self.argument());
        write!(f, "{} {argument} {}", call.name, hex::bytes(self.bytes))?;
        let answers = lent(call.is_lent_answers, self.answers);
        let clocks = lent(call.is_lent_clocks(), &self.clocks);
        write!(f, " {} {}", hex::words(answers, 4), hex::words(clocks, 8))
    }
}

/// What is lent, or nothing.
fn lent<T>(is_lent: bool, what: &[T]) -> &[T] {
    if is_lent { what } else { &[] }
}

impl Call {
    /// Whether it reads bytes and leaves them; the others are on a head.
    pub fn is_reading(&self) -> bool {
        use Id::{LoadCheck, PlanCheck, ReadClocks, ReadFit, ReadLpsys};
        matches!(
            self.id,
            PlanCheck | ReadClocks | ReadLpsys | LoadCheck | ReadFit
        )
    }

    /// Whether a line has the 15 clocks before and after it.
    fn is_lent_clocks(&self) -> bool {
        matches!(self.clocks, Clocks::Written | Clocks::Former)
    }
}

impl Query<'_> {
    /// The bytes of a plan or of entries, or the arguments, each in as many bytes as its type has, high
    /// byte first.
    fn argument(&self) -> Vec<u8> {
        if self.call.is_lent_plan {
            return self.plan.to_vec();
        }
        let arguments = self.arguments.iter().zip(self.call.arguments);
        let bytes = arguments.flat_map(|(value, argument)| {
            let bytes = value.to_be_bytes();
            bytes[bytes.len() - argument.bytes()..].to_vec()
        });
        bytes.collect()
    }
}

impl Argument {
    /// How many bytes its type has.
    fn bytes(&self) -> usize {
        if self.largest > 255 { 4 } else { 1 }
    }
}

/// A query that holds what it is given.
#[derive(Clone, PartialEq, Debug)]
pub struct Owned {
    pub call: &'static Call,
    pub arguments: [u32; 3],
    pub plan: Vec<u8>,
    pub clocks: Frequencies,
    pub bytes: Vec<u8>,
    pub journal: usize,
    pub answers: Vec<u16>,
}

impl Owned {
    pub fn query(&self) -> Query<'_> {
        Query {
            call: self.call,
            arguments: self.arguments,
            plan: &self.plan,
            clocks: self.clocks,
            bytes: &self.bytes,
            journal: self.journal,
            answers: &self.answers,
        }
    }

    /// The query of a line, or what is wrong with it. What stands behind the query,
    /// as the answer does in the records, is not looked at.
    pub fn parse(line: &str) -> Result<Self, String> {
        let mut words = line.split_whitespace().peekable();
        let mut journal = JOURNAL;
        if let Some(number) = words.peek().and_then(|w| w.strip_prefix("journal=")) {
            journal = number.parse().map_err(|_| "journal= takes a number")?;
            words.next();
        }
        let name = words.next().ok_or("no call")?;
        let call = CALLS.iter().find(|call| call.name == name);
        let call = call.ok_or_else(|| format!("no call {name}"))?;
        let mut word = |what: &str| words.next().ok_or_else(|| format!("{name} takes {what}"));
        let mut query = Query::on(call, &[]).to_owned();
        query.journal = journal;
        if call.is_reading() {
            let bytes = hex::read(word("bytes")?, 2).ok_or("bytes that are no hex")?;
            *(if call.is_lent_plan {
                &mut query.plan
            } else {
                &mut query.bytes
            }) = bytes;
            return Ok(query);
        }
        let argument = hex::read(word("an argument")?, 2).ok_or("an argument that is no hex")?;
        query.take_argument(argument)?;
        query.bytes = hex::read(word("a head's bytes")?, 2).ok_or("bytes that are no hex")?;
        query.answers = hex::read(word("answers")?, 4).ok_or("answers that are no hex")?;
        let clocks = hex::read::<u32>(word("clocks")?, 8).ok_or("clocks that are no hex")?;
        if call.is_lent_clocks() {
            query.clocks = clocks.try_into().map_err(|_| "clocks are 15 words")?;
        }
        Ok(query)
    }

    /// Takes a plan or entries, or numbers that have just the bytes of the call's arguments.
    fn take_argument(&mut self, bytes: Vec<u8>) -> Result<(), String> {
        if self.call.is_lent_plan {
            self.plan = bytes;
            return Ok(());
        }
        let mut rest = &bytes[..];
        for (value, argument) in self.arguments.iter_mut().zip(self.call.arguments) {
            let number = rest.split_at_checked(argument.bytes());
            let (number, after) = number.ok_or("an argument that is too short")?;
            *value = number
                .iter()
                .fold(0, |value, &byte| value << 8 | u32::from(byte));
            rest = after;
        }
        match rest {
            [] => Ok(()),
            _ => Err("an argument that is too long".to_string()),
        }
    }
}

impl PartialEq for Call {
    fn eq(&self, other: &Self) -> bool {
        self.id == other.id
    }
}

impl Debug for Call {
    fn fmt(&self, f: &mut Formatter) -> fmt::Result {
        self.id.fmt(f)
    }
}
