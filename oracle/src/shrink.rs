//! Smaller queries that still show what a query shows.

use crate::call::Frequencies;
use crate::head::{BUFFER, Head, TASK, at, decode};
use crate::plan::DEFAULT;
use crate::query::{Id, JOURNAL, Owned, Query};
use std::mem::take;

/// The most queries that are asked.
const MOST_ASKED: usize = 200_000;

/// Makes a query smaller step by step, as long as `shows` holds of it: fewer
/// answers, no tasks, registers of a plain head, fields of the default plan, entries
/// and numbers toward 0. The last one is such that no single step makes it smaller.
pub fn shrink(query: &Query, shows: impl Fn(&Query) -> bool) -> Owned {
    let mut shrinking = Shrinking {
        smallest: query.to_owned(),
        shows,
        asked: 0,
    };
    while shrinking.pass() {}
    shrinking.smallest
}

struct Shrinking<F> {
    smallest: Owned,
    shows: F,
    asked: usize,
}

impl<F: Fn(&Query) -> bool> Shrinking<F> {
    /// Every step once; whether one was made.
    fn pass(&mut self) -> bool {
        let before = self.smallest.clone();
        self.answers();
        let journal = self.smallest.journal as u32;
        self.toward(journal, JOURNAL as u32, |query, words: u32| {
            query.journal = words as usize;
        });
        self.tasks();
        self.bytes();
        let plan: &[u8] = match self.smallest.call.id {
            Id::Moment => &[],
            _ => &DEFAULT,
        };
        self.list(plan, |query| &mut query.plan);
        self.step(|query| query.clocks = Frequencies::default());
        for (place, argument) in before.arguments.into_iter().enumerate() {
            self.toward(argument, 0, |query, value| query.arguments[place] = value);
        }
        self.smallest != before
    }

    /// Takes a smaller query if it shows the same; whether it does.
    fn step(&mut self, change: impl FnOnce(&mut Owned)) -> bool {
        let mut next = self.smallest.clone();
        change(&mut next);
        if next == self.smallest || self.asked == MOST_ASKED {
            return false;
        }
        self.asked += 1;
        let shows = (self.shows)(&next.query());
        if shows {
            self.smallest = next;
        }
        shows
    }

    /// Puts numbers from `to` on that come nearer and nearer to `from`, up to the first
    /// that shows the same.
    fn toward<T: Copy + TryFrom<u32>>(&mut self, from: u32, to: u32, put: impl Fn(&mut Owned, T)) {
        let whole = from.abs_diff(to);
        let parts = (0..u32::BITS).map(|halvings| whole >> halvings);
        for part in parts.take_while(|&part| part > 0) {
            let number = if from > to { from - part } else { from + part };
            let Ok(number) = T::try_from(number) else {
                return;
            };
            if self.step(|query| put(query, number)) {
                return;
            }
        }
    }

    /// Fewer answers, then smaller ones: takes out runs of them, long ones first.
    fn answers(&mut self) {
        let length = self.smallest.answers.len();
        let runs = (0..usize::BITS).map(|halvings| length >> halvings);
        for run in runs.take_while(|&run| run > 0) {
            let mut end = self.smallest.answers.len();
            while end >= run {
                self.step(|query| drop(query.answers.drain(end - run..end)));
                end -= run;
            }
        }
        self.list(&[], |query| &mut query.answers);
    }

    /// No tasks, or one less.
    fn tasks(&mut self) {
        if self.smallest.call.id == Id::LoadCheck {
            let count = self.smallest.bytes.len() / TASK;
            for place in (0..count).rev() {
                self.step(|query| drop(query.bytes.drain(TASK * place..TASK * (place + 1))));
            }
            return;
        }
        let Ok(mut head) = decode(&self.smallest.bytes) else {
            return;
        };
        let tasks = take(&mut head.tasks);
        if self.step(|query| query.bytes = encoded(&head)) {
            return;
        }
        head.tasks = tasks;
        for place in (0..head.tasks.len()).rev() {
            let task = head.tasks.remove(place);
            if !self.step(|query| query.bytes = encoded(&head)) {
                head.tasks.insert(place, task);
            }
        }
    }

    /// Registers and bytes of a plain head; of tasks, bytes toward 0.
    fn bytes(&mut self) {
        if self.smallest.call.id == Id::LoadCheck {
            return self.list(&[], |query| &mut query.bytes);
        }
        let plain = encoded(&Head::plain());
        self.step(|query| query.bytes.clone_from(&plain));
        if self.smallest.bytes.len() == BUFFER {
            for number in 1..=34 {
                let register = at::a(number)..=at::c(number);
                let bytes = &plain[register.clone()];
                self.step(|query| query.bytes[register].copy_from_slice(bytes));
            }
        }
        self.list(&plain, |query| &mut query.bytes);
    }

    /// A list toward another: its length, then its elements, 0 past the other's end.
    fn list<T: Copy + Default + Into<u32> + TryFrom<u32>>(
        &mut self,
        to: &[T],
        field: impl Fn(&mut Owned) -> &mut Vec<T> + Copy,
    ) {
        let length = field(&mut self.smallest).len();
        self.toward(length as u32, to.len() as u32, |query, length: u32| {
            field(query).resize(length as usize, T::default());
        });
        let elements = field(&mut self.smallest).clone();
        for (place, element) in elements.into_iter().enumerate() {
            let target = to.get(place).copied().unwrap_or_default();
            self.toward(element.into(), target.into(), |query, element| {
                field(query)[place] = element;
            });
        }
    }
}

/// A head's buffer, 0 past its record.
fn encoded(head: &Head) -> Vec<u8> {
    let mut buffer = [0; BUFFER];
    head.encode(&mut buffer);
    buffer.to_vec()
}
