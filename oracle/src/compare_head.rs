//! The readings of librikkovan.a against the original's, on heads that are read.

use crate::compare::Extent;
use crate::compare_damaged;
use crate::groups::{Groups, Number, Report};
use crate::heads::{
    Buffer, DIVIDERS, buffer, dlls, likely, plain, put_flags, put_register, random_with_tasks, with,
};
use crate::ours::differs;
use crate::plans::STAGES;
use crate::read::Read;
use crate::tally::Tally;
use sifli::head::{MOST_TASKS, at};
use sifli::query::{Id, Query, call};

const RANDOM: Number = Number::new(10_000_000, 1_000_000);

pub fn run(extent: Extent) -> Report {
    let quick = extent.quick;
    let mut groups = Groups::of_original("read_clocks and read_lpsys", extent);
    groups.group("core clock", |tally| core_clock(tally, quick));
    groups.group("USB", |tally| usb(tally, quick));
    groups.group("flash, peripheral and low-power selects", |tally| {
        selects(tally, quick)
    });
    groups.group("LPSYS", |tally| lpsys(tally, quick));
    compare_damaged::run(&mut groups, quick);
    groups.random("random heads", RANDOM, |tally, random| {
        let buffer = match random.once_in(1000) {
            true => random_with_tasks(random, MOST_TASKS),
            false => likely(random),
        };
        compare(tally, &buffer);
    });
    groups.finish(&[0, 1, 2, 3])
}

/// Both calls on one buffer, with the memory lent to them before and after. A panic
/// of the original code counts as a difference.
pub fn compare(tally: &mut Tally, buffer: &[u8]) {
    let original = Read::original(buffer);
    tally.count(original.as_ref().map_or(0, Read::answer));
    if original != Ok(Read::ours(buffer)) {
        let clocks = Query::on(call(Id::ReadClocks), buffer);
        let lpsys = Query::on(call(Id::ReadLpsys), buffer);
        tally.differ(if differs(&clocks) { &clocks } else { &lpsys });
    }
}

/// All dividers, or in the quick part those at ends and around powers of two.
fn dividers(quick: bool) -> Vec<u8> {
    if quick {
        DIVIDERS.to_vec()
    } else {
        (0..=255).collect()
    }
}

/// Core select, DLL1 on, half and stage, ready flags, hdiv, both pdivs: all of
/// them with some hdivs, and in the full run all hdivs with some pdivs.
fn core_clock(tally: &mut Tally, quick: bool) {
    let few: Vec<u8> = (0..64).step_by(9).collect();
    for select in 0..4 {
        for dll1 in dlls(&STAGES) {
            let mut buffer = with(buffer(&plain(), 0), &[(at::c(1), select)]);
            put_register(&mut buffer, 3, dll1);
            for flags in 0..8 {
                put_flags(&mut buffer, flags);
                hpsys_dividers(tally, buffer, &dividers(quick), &few);
                if flags == 7 {
                    let all: Vec<u8> = (0..64).collect();
                    hpsys_dividers(tally, buffer, &DIVIDERS, &all);
                }
            }
        }
    }
}

fn hpsys_dividers(tally: &mut Tally, mut buffer: Buffer, hdivs: &[u8], pdivs: &[u8]) {
    for &hdiv in hdivs {
        for pdiv in pdivs {
            put_register(&mut buffer, 2, [hdiv, pdiv / 8, pdiv % 8]);
            compare(tally, &buffer);
        }
    }
}

/// USB source and divider, core select, both DLLs, HXT48 and HRC48 ready or not.
fn usb(tally: &mut Tally, quick: bool) {
    let few = dlls(&[0, 4, 9, 15]);
    let dll2s = if quick { few.clone() } else { dlls(&STAGES) };
    for select in 0..4 {
        for flags in 0..4 {
            for &dll1 in &few {
                for &dll2 in &dll2s {
                    let mut buffer = with(buffer(&plain(), 0), &[(at::c(1), select)]);
                    put_flags(&mut buffer, flags);
                    put_register(&mut buffer, 3, dll1);
                    put_register(&mut buffer, 4, dll2);
                    usb_settings(tally, buffer);
                }
            }
        }
    }
}

fn usb_settings(tally: &mut Tally, mut buffer: Buffer) {
    for source in 0..2 {
        for divider in 0..8 {
            buffer[at::c(7)] = source;
            buffer[at::c(8)] = divider;
            compare(tally, &buffer);
        }
    }
}

/// Both flash selects, peripheral and low-power select, both DLLs.
fn selects(tally: &mut Tally, quick: bool) {
    let dlls = if quick {
        dlls(&[0, 1, 8, 9, 14, 15])
    } else {
        dlls(&STAGES)
    };
    for &dll1 in &dlls {
        for &dll2 in &dlls {
            let mut buffer = buffer(&plain(), 0);
            put_register(&mut buffer, 3, dll1);
            put_register(&mut buffer, 4, dll2);
            for setting in 0..64 {
                put_register(&mut buffer, 5, [0, setting % 4, setting / 4 % 4]);
                buffer[at::c(6)] = setting / 16 % 2;
                buffer[at::c(10)] = setting / 32;
                compare(tally, &buffer);
            }
        }
    }
}

/// LPSYS select, peripheral select, ready flags, hdiv1, both pdivs, macdiv;
/// and every hdiv1 with every macdiv.
fn lpsys(tally: &mut Tally, quick: bool) {
    for selects in 0..4 {
        for flags in 0..8 {
            let sources = [(at::c(25), selects % 2), (at::c(27), selects / 2)];
            let mut buffer = with(buffer(&plain(), 0), &sources);
            put_flags(&mut buffer, flags);
            lpsys_dividers(tally, buffer, &dividers(quick));
        }
    }
    let mut buffer = buffer(&plain(), 0);
    for hdiv1 in 0..=255 {
        for macdiv in 0..=255 {
            buffer[at::a(26)] = hdiv1;
            buffer[at::b(34)] = macdiv;
            compare(tally, &buffer);
        }
    }
}

fn lpsys_dividers(tally: &mut Tally, mut buffer: Buffer, hdivs: &[u8]) {
    for &hdiv1 in hdivs {
        for pdiv in 0..64 {
            put_register(&mut buffer, 26, [hdiv1, pdiv / 8, pdiv % 8]);
            for macdiv in [0, 1, 2, 6, 255] {
                buffer[at::b(34)] = macdiv;
                buffer[at::c(34)] = !macdiv;
                compare(tally, &buffer);
            }
        }
    }
}
