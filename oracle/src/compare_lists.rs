//! Lists of guarded changes, bookings, releases and LPSYS requests on one head,
//! each call on the buffer that the one before left, with demand 3 asked of every
//! moment of the whole list.

use crate::change_inputs::{answers, any_plan, fit_head, put_tasks};
use crate::compare::Extent;
use crate::compare_change::{ACCEPTED, holds};
use crate::config_plans::accepted;
use crate::groups::{Groups, Number, Report};
use crate::heads::{Buffer, journal};
use crate::plans::Record;
use crate::tally::Tally;
use crate::task_inputs::{Order, any_past, random_id, random_task};
use sifli::claim::{self, Booked, Broken, Seen};
use sifli::head::{Head, decode};
use sifli::lent::Left;
use sifli::query::{Id, Query, call};
use sifli::random::Random;
use sifli::readings;

const CALLS: Number = Number::new(1_250_000, 500_000);

/// The most calls of a list.
const MOST_CALLS: usize = 24;

/// 0 and the refusals of the four calls that a list from a fit head meets: none
/// of the head's, not 34 and not 37. 1 to 3 are the plan's.
const ANSWERS: [usize; 25] = [
    0, 1, 2, 3, 4, 5, 6, 7, 8, 9, 10, 11, 12, 13, 14, 15, 16, 17, 18, 36, 38, 39, 40, 41, 42,
];

/// Refusals that no list from a fit head meets.
const NEVER: [u64; 3] = [34, 35, 37];

pub fn run(extent: Extent) -> Report {
    let mut groups = Groups::ruled("lists of calls", extent);
    let accepted = accepted(&mut extent.random("accepted plans"), ACCEPTED);
    groups.random("random calls from fit heads", CALLS, |tally, random| {
        List::begin(random).run(tally, random, &accepted)
    });
    groups.finish(&ANSWERS)
}

/// A list on its way.
struct List {
    /// As the last call of librikkovan.a left it.
    buffer: Buffer,
    head: Head,
    booked: Booked,
}

impl List {
    fn begin(random: &mut Random) -> Self {
        let mut head = fit_head(random);
        let hclk = readings::hclk(&head).expect("a fit head");
        put_tasks(random, &mut head, hclk);
        Self {
            buffer: any_past(random, &head),
            booked: Booked::of(&head),
            head,
        }
    }

    /// Up to the last call, or the first that differs or breaks a clause.
    fn run(mut self, tally: &mut Tally, random: &mut Random, accepted: &[Record]) {
        for _ in 0..1 + random.below(MOST_CALLS) {
            let goes_on = match random.below(16) {
                0..4 => {
                    let task = random_task(random, &self.head);
                    self.order(tally, Order::Book(task))
                }
                4..6 => {
                    let id = random_id(random, &self.head);
                    self.order(tally, Order::Release(id))
                }
                6..9 => self.request(tally, random),
                _ => self.change(tally, random, accepted),
            };
            if !goes_on {
                return;
            }
        }
    }

    fn change(&mut self, tally: &mut Tally, random: &mut Random, accepted: &[Record]) -> bool {
        let head = self.buffer;
        let query = Query {
            plan: &any_plan(random, accepted),
            journal: journal(random),
            answers: &answers(random),
            ..Query::on(call(Id::Change), &head)
        };
        self.go_on(tally, &query, |_, left| holds(&query, left))
    }

    fn request(&mut self, tally: &mut Tally, random: &mut Random) -> bool {
        let head = self.buffer;
        let query = Query {
            arguments: [random.below(52) as u32, 0, 0],
            journal: journal(random),
            ..Query::on(call(Id::Request), &head)
        };
        self.go_on(tally, &query, |list, left| list.held(left))
    }

    fn order(&mut self, tally: &mut Tally, order: Order) -> bool {
        let head = self.buffer;
        self.go_on(tally, &order.on(&head), |list, left| {
            list.held(left)?;
            match order {
                Order::Book(task) if left.refusal() == 0 => {
                    list.booked.add(task);
                    claim::load_is_carried(&decoded(left)?)
                }
                Order::Release(id) if left.refusal() == 0 => {
                    list.booked.take_out(id);
                    Ok(())
                }
                _ => Ok(()),
            }
        })
    }

    /// The clauses of every call.
    fn held(&self, left: &Left) -> Result<(), Broken> {
        let after = decoded(left)?;
        claim::of_call(&Seen {
            before: &self.head,
            answer: left.refusal(),
            entries: left.entries(),
            taken: left.taken() as usize,
            after: &after,
        })
    }

    /// Compares a call, asks the clauses of it, and puts what it left in place for the
    /// next one; false where the list ends here. What a broken clause says depends on
    /// the list, so its query is printed as it is.
    fn go_on(
        &mut self,
        tally: &mut Tally,
        query: &Query,
        held: impl FnOnce(&mut Self, &Left) -> Result<(), Broken>,
    ) -> bool {
        let (left, is_alike) = tally.compare(query);
        let held = held(self, &left).and_then(|()| self.put(&left));
        let is_held = held.is_ok();
        tally.claim(query, left.entries().len() + 1, held, |_| Ok(()));
        is_alike && is_held
    }

    /// Of every call: not refused as no fit head is, and the head is fit after it
    /// and holds just what is booked.
    fn put(&mut self, left: &Left) -> Result<(), Broken> {
        if NEVER.contains(&left.refusal()) {
            return Err(format!("refused {} on a fit head", left.refusal()));
        }
        self.head = decoded(left)?;
        self.buffer.copy_from_slice(left.bytes());
        if !claim::is_fit(&self.head) {
            return Err("the head is not fit after the call".to_string());
        }
        self.booked.are_held_by(&self.head)
    }
}

fn decoded(left: &Left) -> Result<Head, Broken> {
    decode(left.bytes()).map_err(|_| "the buffer is no head".to_string())
}
