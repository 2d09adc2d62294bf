//! Plans to record, with the original's answers.

use crate::plans::{
    LONGEST, Record, STAGES, coded, damaged, default_with, dlls, likely, near_default, of_length,
    put_dll,
};
use crate::record::{CallLines, FEWEST, write_calls};
use sifli::calls::of_plans;
use sifli::plan::{self, DEFAULT, LARGEST, at};
use sifli::random::Random;
use std::io;
use std::path::Path;

/// Random plans of each of the four sorts.
const RANDOM: usize = 175;

pub fn write(directory: &Path) -> io::Result<()> {
    write_calls(directory, of_plans(), FEWEST, |list| {
        starred(list);
        records(list);
        fields(list);
        absent_dlls(list);
        every_dll(list);
        slow_core(list);
        limits(list);
        muxes(list);
        random(list);
    })
}

/// Document 01's plan cases with a star.
fn starred(list: &mut CallLines) {
    list.read(&DEFAULT);
    list.read(&default_with(&[(at::PDIV1, 0)]));
    list.read(&default_with(&[(at::PDIV2, 4)]));
    list.read(&default_with(&[(at::PDIV2, 5)]));
    list.read(&default_with(&[(at::DLL1 + 1, 10)]));
    list.read(&default_with(&[(at::DLL1 + 1, 10), (at::USB, 0)]));
    list.read(&default_with(&[
        (at::DLL1 + 1, 0),
        (at::DLL1 + 2, 1),
        (at::USB, 0),
    ]));
    list.read(&default_with(&[(at::DLL2 + 1, 12)]));
}

/// Lengths, length fields and versions, alone and with a wrong code.
fn records(list: &mut CallLines) {
    for length in 0..=LONGEST {
        for slice in of_length(length) {
            list.read(&slice);
        }
    }
    let fields = [0u16, 1, 16, 17, 19, 20, 34, 255, 256, 18 << 8, 0xFFFF];
    for field in fields.into_iter().chain((0..16).map(|bit| 18 ^ 1 << bit)) {
        let [high, low] = field.to_be_bytes();
        list.read(&default_with(&[(0, high), (1, low)]));
        list.read(&default_with(&[(0, high), (1, low), (at::VERSION, 2)]));
    }
    for version in [0, 2, 3, 4, 16, 17, 127, 128, 254, 255] {
        list.read(&default_with(&[(at::VERSION, version)]));
        list.read(&default_with(&[(at::VERSION, version), (at::CORE, 4)]));
        list.read(&default_with(&[(at::VERSION, version), (at::PDIV1, 0)]));
    }
}

/// Each field of the default plan at its codes, one above the largest, and
/// some far above.
fn fields(list: &mut CallLines) {
    for (index, largest) in (at::CORE..).zip(LARGEST) {
        for byte in (0..=largest.saturating_add(1).min(66)).chain([127, 128, 254, 255]) {
            list.read(&default_with(&[(index, byte)]));
            list.read(&default_with(&[(index, byte), (at::USB, 0)]));
        }
    }
}

/// An absent DLL with every stage and half.
fn absent_dlls(list: &mut CallLines) {
    for [_, stage, half] in dlls(&STAGES) {
        let without_dll1 = default_with(&[(at::CORE, 1), (at::USB, 0)]);
        let without_dll2 = default_with(&[(at::MPI2, 0)]);
        for (mut plan, at) in [(without_dll1, at::DLL1), (without_dll2, at::DLL2)] {
            put_dll(&mut plan, at, [0, stage, half]);
            list.read(&plan);
        }
    }
}

/// Every DLL1 as core and every DLL2, with usb off and from either source.
fn every_dll(list: &mut CallLines) {
    for dll in dlls(&STAGES) {
        for (hdiv, usb, source) in [(1, 0, 0), (1, 1, 0), (2, 1, 0), (8, 1, 1), (1, 1, 1)] {
            for at in [at::DLL1, at::DLL2] {
                let mut plan = default_with(&[
                    (at::HDIV, hdiv),
                    (at::USB, usb),
                    (at::USB_SOURCE, source),
                    (at::MPI2, 0),
                ]);
                put_dll(&mut plan, at, dll);
                list.read(&plan);
            }
        }
    }
}

/// Core clocks of 12, 24 and 48 MHz from DLL1, around test 10.
fn slow_core(list: &mut CallLines) {
    for dll1 in [[1, 0, 1], [1, 0, 0], [1, 1, 1], [1, 1, 0]] {
        for hdiv in [0, 1, 2, 255] {
            for (pdiv2, stage2) in [(0, 11), (1, 12), (2, 11), (3, 15)] {
                let mut plan = default_with(&[
                    (at::HDIV, hdiv),
                    (at::PDIV2, pdiv2),
                    (at::DLL2 + 1, stage2),
                    (at::USB, 0),
                ]);
                put_dll(&mut plan, at::DLL1, dll1);
                list.read(&plan);
                plan[at::MPI2] = 1;
                list.read(&plan);
            }
        }
    }
}

/// Both sides of every limit on HCLK, PCLK1, PCLK2 and DLL2: neighbours in
/// hdiv whose answers differ, for every core clock.
fn limits(list: &mut CallLines) {
    for dll1 in dlls(&STAGES) {
        for (pdiv1, pdiv2, stage2) in [
            (0, 7, 11),
            (1, 7, 12),
            (1, 5, 11),
            (1, 4, 12),
            (1, 3, 11),
            (0, 2, 12),
            (3, 0, 11),
        ] {
            let mut plan = default_with(&[
                (at::CORE, if dll1[0] == 1 { 3 } else { 1 }),
                (at::PDIV1, pdiv1),
                (at::PDIV2, pdiv2),
                (at::DLL2 + 1, stage2),
                (at::USB, 0),
            ]);
            put_dll(&mut plan, at::DLL1, dll1);
            turns(list, plan);
        }
    }
}

fn turns(list: &mut CallLines, plan: Record) {
    let with_hdiv = |hdiv| {
        let mut plan = plan;
        plan[at::HDIV] = hdiv;
        plan
    };
    list.read(&with_hdiv(0));
    for hdiv in 1..255 {
        let [here, next] = [with_hdiv(hdiv), with_hdiv(hdiv + 1)];
        if plan::check(&here) != plan::check(&next) {
            list.read(&here);
            list.read(&next);
        }
    }
}

/// Flash selects and USB source on DLLs that are there or not.
fn muxes(list: &mut CallLines) {
    for (core, hdiv) in [(0, 1), (1, 1), (3, 1), (3, 2)] {
        for present in 0..4 {
            for setting in 0..36 {
                let mut plan = default_with(&[
                    (at::CORE, core),
                    (at::HDIV, hdiv),
                    (at::PDIV2, 7),
                    (at::USB, setting % 2),
                    (at::USB_SOURCE, setting / 2 % 2),
                    (at::MPI1, setting / 4 % 3),
                    (at::MPI2, setting / 12),
                ]);
                let dll = |bit: u8| {
                    if present & bit != 0 {
                        [1, 9, 0]
                    } else {
                        [0; 3]
                    }
                };
                put_dll(&mut plan, at::DLL1, dll(1));
                put_dll(&mut plan, at::DLL2, dll(2));
                list.read(&plan);
            }
        }
    }
}

fn random(list: &mut CallLines) {
    let mut random = Random::new(0xA115);
    for _ in 0..RANDOM {
        list.read(&coded(&mut random));
        list.read(&near_default(&mut random));
        list.read(&likely(&mut random));
        let mut buffer = [0; LONGEST];
        let length = damaged(&mut random, &mut buffer);
        list.read(&buffer[..length]);
    }
}
