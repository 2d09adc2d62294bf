//! The moments of librikkovan.a against document 01.

use crate::change_inputs::few_fit;
use crate::compare::Extent;
use crate::groups::{Groups, Number, Report};
use crate::heads::{LONGEST, buffer, busy, damaged_or_any, few_heads, with, with_tasks};
use crate::ours::ours;
use crate::plans::default_with;
use crate::tally::Tally;
use crate::task_inputs::{any_past, random_head};
use sifli::head::{BUFFER, LARGEST, MOST_TASKS, at};
use sifli::moment::bytes;
use sifli::query::{Id, Query, call};
use sifli::random::Random;
use sifli::world::{DELAY, WAIT, entry};

const RANDOM: Number = Number::new(1_000_000, 200_000);
const DAMAGED: Number = Number::new(200_000, 20_000);

/// The most entries of a random list.
const MOST_ENTRIES: usize = 40;

pub fn run(extent: Extent) -> Report {
    let quick = extent.quick;
    let mut groups = Groups::ruled("moment", extent);
    groups.group("every number", every_number);
    groups.group("every byte of a store", every_byte);
    groups.group("one word that is no entry", one_fault);
    groups.group("numbers of entries", |tally| numbers(tally, quick));
    groups.group("journals of changes", journals);
    groups.group("one byte changed", |tally| one_byte_changed(tally, quick));
    groups.group("buffer lengths 0 to 300", lengths);
    groups.random("damaged heads", DAMAGED, |tally, random| {
        compare(tally, &damaged_or_any(random), &any_entries(random));
    });
    groups.random("random entries", RANDOM, |tally, random| {
        let head = random_head(random);
        compare(tally, &any_past(random, &head), &any_entries(random));
    });
    groups.finish(call(Id::Moment).refusals)
}

fn compare(tally: &mut Tally, head: &[u8], entries: &[u32]) {
    tally.compare(&Query {
        plan: &bytes(entries),
        ..Query::on(call(Id::Moment), head)
    });
}

/// All 256 numbers, with some values.
fn every_number(tally: &mut Tally) {
    const VALUES: [u32; 9] = [0, 1, 2, 7, 15, 0x0100, 0x010101, 0x01_0000, 0xFF_FFFF];
    for head in few_heads() {
        for number in 0..=255 {
            for value in VALUES {
                compare(tally, &head, &[number << 24 | value]);
            }
        }
    }
}

/// Each byte of each register at every value, the other two 0 and at their largest.
fn every_byte(tally: &mut Tally) {
    let head = buffer(&with_tasks(busy(), 2), 0xEE);
    for (number, largest) in (1..).zip(LARGEST) {
        for rest in [[0; 3], largest] {
            for place in 0..3 {
                for byte in 0..=255 {
                    let mut value = rest;
                    value[place] = byte;
                    let [a, b, c] = value;
                    let store = u32::from_be_bytes([number, a, b, c]);
                    compare(tally, &head, &[store]);
                }
            }
        }
    }
}

/// Lists of up to eight stores, delays and waits with one word that is none at each
/// place; on heads that are refused too.
fn one_fault(tally: &mut Tally) {
    const ENTRIES: [u32; 8] = [
        entry(1, 3),
        entry(DELAY, 0xFF_FFFF),
        entry(2, 0xFF_0707),
        entry(1, 0),
        entry(WAIT, 0x03_0001),
        entry(34, 0xFFFF),
        entry(17, 0x1234),
        entry(12, 1),
    ];
    const FAULTS: [u32; 6] = [
        0,
        entry(35, 0),
        entry(47, 0),
        entry(50, 0),
        entry(1, 4),
        u32::MAX,
    ];
    let good = buffer(&busy(), 0);
    for damage in [(at::c(1), 1), (at::VERSION, 2), (at::c(1), 4), (1, 0)] {
        let head = with(good, &[damage]);
        for length in 0..=ENTRIES.len() {
            compare(tally, &head, &ENTRIES[..length]);
            for place in 0..length {
                for fault in FAULTS {
                    let mut entries = ENTRIES;
                    entries[place] = fault;
                    compare(tally, &head, &entries[..length]);
                }
            }
        }
    }
}

/// As many entries as there are, up to 300, and lengths past 8 and 16 bits.
fn numbers(tally: &mut Tally, quick: bool) {
    let head = buffer(&with_tasks(busy(), MOST_TASKS), 0);
    let many: &[usize] = if quick {
        &[4096]
    } else {
        &[4096, 65_535, 65_600]
    };
    for length in (0..=300).chain(many.iter().copied()) {
        let stores = (0..length as u32).map(|index| entry(17, index % 65_536));
        let mut entries: Vec<u32> = stores.collect();
        compare(tally, &head, &entries);
        if let Some(last) = entries.last_mut() {
            *last = 0;
            compare(tally, &head, &entries);
        }
    }
}

/// The first entries, none to all, of what guarded changes and requests leave.
fn journals(tally: &mut Tally) {
    let fit = few_fit().into_iter().map(|head| buffer(&head, 0));
    for head in fit.chain(few_heads()) {
        for hdiv in [1, 2, 5, 10] {
            let plan = default_with(&[(4, hdiv)]);
            let calls = [Id::Change, Id::Init, Id::Reconfigure, Id::Request].map(|id| Query {
                plan: &plan,
                arguments: [24, 0, 0],
                answers: &[1; 64],
                ..Query::on(call(id), &head)
            });
            for query in calls {
                let left = ours(&query);
                for number in 0..=left.entries().len() {
                    compare(tally, &head, &left.entries()[..number]);
                }
            }
        }
    }
}

/// Every byte of the buffer at every value, with a store; in the full run on four heads.
fn one_byte_changed(tally: &mut Tally, quick: bool) {
    let heads = few_heads();
    let heads = if quick { &heads[2..3] } else { &heads[..] };
    for &good in heads {
        for index in 0..BUFFER {
            for byte in 0..=255 {
                compare(tally, &with(good, &[(index, byte)]), &[entry(3, 0x01_0009)]);
            }
        }
    }
}

/// Heads cut short or extended, zeros, 255s; with a store, and with a word that is
/// none.
fn lengths(tally: &mut Tally) {
    for length in (0..=LONGEST).chain([511, 65_535, 65_536 + BUFFER]) {
        for word in [entry(1, 1), 0] {
            let mut bytes = buffer(&busy(), 0).to_vec();
            bytes.resize(length, 0);
            compare(tally, &bytes, &[word]);
            compare(tally, &vec![0; length], &[word]);
            compare(tally, &vec![255; length], &[word]);
        }
    }
}

/// Mostly stores within their registers' codes, and delays and waits; often with a word
/// that is likely none.
fn any_entries(random: &mut Random) -> Vec<u32> {
    let length = random.below(MOST_ENTRIES + 1);
    let mut entries: Vec<u32> = (0..length).map(|_| any_entry(random)).collect();
    if length > 0 && random.once_in(3) {
        let place = random.below(length);
        entries[place] = match random.once_in(2) {
            true => random.word() as u32,
            false => entries[place] ^ 1 << random.below(32),
        };
    }
    entries
}

fn any_entry(random: &mut Random) -> u32 {
    if random.once_in(5) {
        let number = random.pick(&[DELAY, WAIT]);
        return entry(number, random.word() as u32 & 0xFF_FFFF);
    }
    let number = random.below(LARGEST.len());
    let [a, b, c] = LARGEST[number].map(|largest| random.up_to(largest));
    u32::from_be_bytes([number as u8 + 1, a, b, c])
}
