//! The reading of rail limit, load and fitness of librikkovan.a against document 01.

use crate::change_inputs::{CORES, few_fit, head, put_core, put_rails, put_tasks, rails};
use crate::compare::Extent;
use crate::groups::{Groups, Number, Report};
use crate::heads::{
    DIVIDERS, LONGEST, buffer, damaged_or_any, put_flags, put_register, with, with_tasks,
};
use crate::tally::Tally;
use crate::task_inputs::{any_past, with_light_tasks};
use sifli::change::fit;
use sifli::head::{BUFFER, Head, MOST_TASKS, at, decode};
use sifli::query::{Id, Query, call};
use std::cell::Cell;

const RANDOM: Number = Number::new(1_000_000, 200_000);
const DAMAGED: Number = Number::new(200_000, 20_000);

/// 0 for a fit head, and the numbers of the clauses.
const CLAUSES: usize = 7;

pub fn run(extent: Extent) -> Report {
    let quick = extent.quick;
    let mut groups = Groups::ruled("read_fit", extent);
    let came = Cell::new([false; CLAUSES]);
    let see = |tally: &mut Tally, bytes: &[u8]| {
        if let Ok(head) = decode(bytes) {
            let mut clauses = came.get();
            clauses[fit(&head)[2] as usize] = true;
            came.set(clauses);
        }
        tally.compare(&Query::on(call(Id::ReadFit), bytes));
    };
    groups.group("modes and rails", |tally| modes_and_rails(tally, see));
    groups.group("every rail", |tally| every_rail(tally, see));
    groups.group("flash selects", |tally| flash_selects(tally, see));
    groups.group("LPSYS", |tally| lpsys(tally, see, quick));
    groups.group("tasks", |tally| tasks(tally, see));
    groups.group("one byte changed", |tally| {
        one_byte_changed(tally, see, quick)
    });
    groups.group("buffer lengths 0 to 300", |tally| lengths(tally, see));
    groups.random("damaged heads", DAMAGED, |tally, random| {
        see(tally, &damaged_or_any(random));
    });
    groups.random("random heads", RANDOM, |tally, random| {
        let mut head = head(random);
        put_tasks(random, &mut head, 240_000_000);
        see(tally, &any_past(random, &head));
    });
    let mut report = groups.finish(call(Id::ReadFit).refusals);
    for (clause, came) in came.get().into_iter().enumerate() {
        if !came {
            println!("  differs: read_fit never left {clause} as what fails");
            report.missing.push(clause);
        }
    }
    report
}

/// 24 core clocks, rails at, one below and above the values of each row on both
/// supplies, all ready flags.
fn modes_and_rails(tally: &mut Tally, see: impl Fn(&mut Tally, &[u8])) {
    for core in CORES {
        for rails in rails() {
            for flags in 0..8 {
                let mut head = Head::plain();
                put_core(&mut head, core);
                put_rails(&mut head, rails);
                let mut buffer = buffer(&head, 0);
                put_flags(&mut buffer, flags);
                see(tally, &buffer);
            }
        }
    }
}

/// All 256 values of the rails of each supply, the others 0 and 15.
fn every_rail(tally: &mut Tally, see: impl Fn(&mut Tally, &[u8])) {
    for supply in 0..2 {
        for other in [0, 15] {
            for value in 0..256 {
                let mut head = Head::plain();
                head.registers[13..17].fill(other);
                put_rails(&mut head, (supply, value / 16, value % 16));
                see(tally, &buffer(&head, 0));
            }
        }
    }
}

/// Every pair of flash selects, both DLLs on and off, on each fit head.
fn flash_selects(tally: &mut Tally, see: impl Fn(&mut Tally, &[u8])) {
    for head in few_fit() {
        for setting in 0..64u8 {
            let mut buffer = buffer(&head, 0);
            put_register(&mut buffer, 5, [0, setting % 4, setting / 4 % 4]);
            buffer[at::a(3)] = setting / 16 % 2;
            buffer[at::a(4)] = setting / 32;
            see(tally, &buffer);
        }
    }
}

/// LPSYS select and supply, ready flags, some hdiv1, in the full run all.
fn lpsys(tally: &mut Tally, see: impl Fn(&mut Tally, &[u8]), quick: bool) {
    let hdivs: Vec<u8> = match quick {
        true => DIVIDERS.to_vec(),
        false => (0..=255).collect(),
    };
    for head in few_fit() {
        for setting in 0..32 {
            for &hdiv1 in &hdivs {
                let sources = [(at::c(25), setting % 2), (at::c(28), setting / 2 % 2)];
                let mut buffer = with(buffer(&head, 0), &sources);
                buffer[at::a(26)] = hdiv1;
                put_flags(&mut buffer, setting / 4);
                see(tally, &buffer);
            }
        }
    }
}

/// Every count of tasks, light and heavy, and tasks past the count.
fn tasks(tally: &mut Tally, see: impl Fn(&mut Tally, &[u8])) {
    for head in few_fit() {
        for count in 0..=MOST_TASKS {
            see(tally, &buffer(&with_light_tasks(head.clone(), count), 0));
            see(tally, &buffer(&with_tasks(head.clone(), count), 0xEE));
        }
    }
}

/// Every byte of a fit head with tasks at every value; quick of one head.
fn one_byte_changed(tally: &mut Tally, see: impl Fn(&mut Tally, &[u8]), quick: bool) {
    let heads = few_fit();
    let heads = if quick { &heads[..1] } else { &heads[..] };
    for head in heads {
        let good = buffer(&with_light_tasks(head.clone(), 3), 0);
        for index in 0..BUFFER {
            for byte in 0..=255 {
                see(tally, &with(good, &[(index, byte)]));
            }
        }
    }
}

/// Heads cut short or extended, zeros, 255s.
fn lengths(tally: &mut Tally, see: impl Fn(&mut Tally, &[u8])) {
    for length in (0..=LONGEST).chain([511, 65_535, 65_536 + BUFFER]) {
        let mut bytes = buffer(&Head::plain(), 0).to_vec();
        bytes.resize(length, 0);
        see(tally, &bytes);
        see(tally, &vec![0; length]);
        see(tally, &vec![255; length]);
    }
}
