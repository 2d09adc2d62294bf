//! The plan check of librikkovan.a against the original's.

use crate::compare::Extent;
use crate::groups::{Groups, Number, Report};
use crate::plans::{
    LONGEST, Record, STAGES, coded, damaged, default_with, dlls, likely, near_default, of_length,
    put_dll,
};
use crate::tally::Tally;
use rikkovan::bytes;
use sifli::plan::{self, DEFAULT, LENGTH, at};
use sifli::query::Query;
use sifli::random::Random;

const RANDOM: Number = Number::new(10_000_000, 1_000_000);

pub fn run(extent: Extent) -> Report {
    let mut groups = Groups::of_original("plan_check", extent);
    groups.group("dividers and DLLs", |tally| {
        dividers_and_dlls(tally, extent.quick)
    });
    groups.group("USB, flash and DLLs present", muxes);
    groups.group("one byte changed", one_byte_changed);
    groups.group("lengths 0 to 40", lengths);
    groups.group("length fields", length_fields);
    groups.random("random plans", RANDOM, random_plan);
    groups.finish(&[0, 1, 2, 3, 4, 5, 6, 7, 8, 9, 10, 11, 12, 13, 14])
}

fn compare(tally: &mut Tally, slice: &[u8]) {
    let original = plan::check(slice);
    let ours = bytes::plan_check(slice);
    tally.count(original);
    if original != ours {
        tally.differ(&Query::plan(slice));
    }
}

/// Core select, hdiv, both pdivs, every DLL1, DLL2 absent and at stages 11 and
/// 12, usb off and from each source that is there.
fn dividers_and_dlls(tally: &mut Tally, quick: bool) {
    for dll2 in dlls(&[11, 12]) {
        for dll1 in dlls(&STAGES) {
            for core in 0..4 {
                let mut plan = default_with(&[(at::CORE, core), (at::MPI2, 0)]);
                put_dll(&mut plan, at::DLL1, dll1);
                put_dll(&mut plan, at::DLL2, dll2);
                usb_settings(tally, plan, quick);
            }
        }
    }
}

fn usb_settings(tally: &mut Tally, mut plan: Record, quick: bool) {
    for [usb, source] in [[0, 0], [1, 0], [1, 1]] {
        if source <= plan[at::DLL2] {
            plan[at::USB] = usb;
            plan[at::USB_SOURCE] = source;
            divider_settings(tally, plan, quick);
        }
    }
}

/// With hdiv 64 or more HCLK is at most 6 MHz, the lowest limit. The quick part
/// has the small dividers, and some of the others on both sides of a limit.
fn divider_settings(tally: &mut Tally, mut plan: Record, quick: bool) {
    for hdiv in 0..=255 {
        if quick && !matches!(hdiv, 0..=17 | 24 | 25 | 32 | 33 | 48 | 51..=53 | 63..=65 | 128 | 255)
        {
            continue;
        }
        plan[at::HDIV] = hdiv;
        for pdivs in 0..64 {
            plan[at::PDIV1] = pdivs / 8;
            plan[at::PDIV2] = pdivs % 8;
            compare(tally, &plan);
        }
    }
}

/// usb, USB source, both flash selects and both DLLs' presence, on each core
/// select and several dividers and DLLs.
fn muxes(tally: &mut Tally) {
    for dll1 in dlls(&[0, 4, 9, 15]) {
        for dll2 in dlls(&[0, 4, 9, 11, 12, 15]) {
            for core in 0..4 {
                for hdiv in [0, 1, 2, 6, 255] {
                    let mut plan = default_with(&[(at::CORE, core), (at::HDIV, hdiv)]);
                    put_dll(&mut plan, at::DLL1, dll1);
                    put_dll(&mut plan, at::DLL2, dll2);
                    mux_settings(tally, plan);
                }
            }
        }
    }
}

fn mux_settings(tally: &mut Tally, mut plan: Record) {
    for setting in 0..36 {
        plan[at::USB] = setting % 2;
        plan[at::USB_SOURCE] = setting / 2 % 2;
        plan[at::MPI1] = setting / 4 % 3;
        plan[at::MPI2] = setting / 12;
        compare(tally, &plan);
    }
}

/// Every byte of the default plan at every value, and of three others.
fn one_byte_changed(tally: &mut Tally) {
    let without_dlls = default_with(&[
        (at::CORE, 1),
        (at::DLL1, 0),
        (at::DLL1 + 1, 0),
        (at::DLL2, 0),
        (at::DLL2 + 1, 0),
        (at::USB, 0),
        (at::MPI2, 0),
    ]);
    let usb_from_dll2 = default_with(&[(at::USB_SOURCE, 1), (at::DLL2 + 1, 9)]);
    let at_48_mhz = default_with(&[(at::HDIV, 5), (at::DLL2 + 1, 12), (at::MPI1, 1)]);
    for plan in [DEFAULT, without_dlls, usb_from_dll2, at_48_mhz] {
        for index in 0..LENGTH {
            for byte in 0..=255 {
                let mut changed = plan;
                changed[index] = byte;
                compare(tally, &changed);
            }
        }
    }
}

fn lengths(tally: &mut Tally) {
    let mut random = Random::new(0x1E46);
    for length in 0..=LONGEST {
        for slice in of_length(length) {
            compare(tally, &slice);
        }
        for _ in 0..100 {
            let slice: Vec<u8> = (0..length).map(|_| random.byte()).collect();
            compare(tally, &slice);
        }
    }
}

/// Every length field on 20 bytes, with version and codes right and wrong.
fn length_fields(tally: &mut Tally) {
    for changes in [&[][..], &[(at::VERSION, 2)], &[(at::CORE, 4)]] {
        let mut plan = default_with(changes);
        for field in 0..=u16::MAX {
            plan[..2].copy_from_slice(&field.to_be_bytes());
            compare(tally, &plan);
        }
    }
}

fn random_plan(tally: &mut Tally, random: &mut Random) {
    match random.below(8) {
        0..=1 => compare(tally, &coded(random)),
        2..=3 => compare(tally, &near_default(random)),
        4..=6 => compare(tally, &likely(random)),
        _ => {
            let mut buffer = [0; LONGEST];
            let length = damaged(random, &mut buffer);
            compare(tally, &buffer[..length]);
        }
    }
}
