//! The constants of the crate and those of `rikkovan.h`.

use crate::header::{between, defined, rows};
use rikkovan::rcc::{Mpisel, Perisel, Sysclk, Usbsel, Wdtsel};
use rikkovan::{
    Clocks, Entry, Head, Hertz, LpsysClocks, LpsysSource, Plan, Refusal, Register, Task, Unfit,
    WaitKind, CLOCKS, FIT_NUMBERS, JOURNAL_WORDS, LPSYS_CLOCKS, MOST_ANSWERS,
};
use std::collections::BTreeMap;
use std::fmt::Debug;

/// The name that C has for a case: `DLL_BUFFER_ON` for `DllBufferOn`.
fn c_name(case: impl Debug) -> String {
    let mut name = String::new();
    for letter in format!("{case:?}").chars() {
        if letter.is_uppercase() && !name.is_empty() {
            name.push('_');
        }
        name.push(letter.to_ascii_uppercase());
    }
    name
}

/// The cases of an enum, with the names of C behind a prefix.
macro_rules! cases {
    ($prefix:literal, $type:ty) => {
        <$type>::ALL.iter().map(|case| {
            let name = format!(concat!($prefix, "_{}"), c_name(case));
            (name, u64::from(case.number()))
        })
    };
}

/// What the crate has for the names of the header, but for the places in records.
fn constants() -> BTreeMap<String, u64> {
    let others = [
        ("PLAN_BYTES", Plan::BYTES),
        ("HEAD_BYTES", Head::BYTES),
        ("TASK_BYTES", Task::BYTES),
        ("MOST_TASKS", Task::MOST),
        ("CLOCKS", CLOCKS),
        ("LPSYS_CLOCKS", LPSYS_CLOCKS),
        ("FIT_NUMBERS", FIT_NUMBERS),
        ("JOURNAL_WORDS", JOURNAL_WORDS),
        ("MOST_ANSWERS", MOST_ANSWERS),
        ("USB_CORE", Usbsel::Sysclk.number().into()),
        ("USB_DLL2", Usbsel::Dll2.number().into()),
        ("MPI_PERIPHERAL", Mpisel::Peri.number().into()),
        ("MPI_DLL1", Mpisel::Dll1.number().into()),
        ("MPI_DLL2", Mpisel::Dll2.number().into()),
    ];
    cases!("REFUSED", Refusal)
        .chain(cases!("UNFIT", Unfit))
        .chain(cases!("REG", Register))
        .chain(cases!("WAIT", WaitKind))
        .chain(cases!("CORE", Sysclk))
        .chain(cases!("WDT", Wdtsel))
        .chain(cases!("PERIPHERAL", Perisel))
        .chain(cases!("LPSYS", LpsysSource))
        .chain(others.map(|(name, number)| (name.to_string(), number as u64)))
        .collect()
}

/// What the header names and the crate does not: codes of bytes that are plain numbers here, limits
/// that the types have, and the rows of the supply modes.
const UNNAMED: [&str; 32] = [
    "BOOT_STANDBY",
    "D0_BUCK",
    "D0_LDO",
    "D1_BUCK",
    "D1_LDO",
    "ENTRY_DELAY",
    "ENTRY_WAIT",
    "HPSYS_SUPPLY_D",
    "HPSYS_SUPPLY_S",
    "LIBRARY_MAJOR",
    "LIBRARY_MINOR",
    "LIBRARY_PATCH",
    "LPSYS_MOST_MHZ",
    "LPSYS_SUPPLY_D",
    "LPSYS_SUPPLY_S",
    "LRC10_HZ",
    "LRC32_HZ",
    "MHZ",
    "MOST_PDIV",
    "MOST_PERIOD_US",
    "MOST_STAGE",
    "MOST_TRIM",
    "MOST_USB_DIVIDER",
    "MOST_VOLTAGE",
    "MPI_RESERVED",
    "NOT_READY",
    "READY",
    "REGISTERS",
    "S0_BUCK",
    "S0_LDO",
    "S1_BUCK",
    "S1_LDO",
];

/// These, what is of records, and the stack that calls need.
fn is_unnamed(name: &str) -> bool {
    let is_group = ["PLAN_", "HEAD_", "TASK_", "STACK_"]
        .iter()
        .any(|group| name.starts_with(group));
    UNNAMED.contains(&name) || is_group && !name.ends_with("_BYTES")
}

#[test]
fn constants_are_those_of_the_header() {
    let rows = rows("REFUSALS").chain(rows("UNFITS"));
    let stated = defined()
        .chain(rows.map(|(number, name, _)| (name, number.into())))
        .filter(|(name, _)| !is_unnamed(name));
    let stated: BTreeMap<String, u64> = stated.map(|(name, n)| (name.to_string(), n)).collect();
    assert_eq!(constants(), stated);
}

#[test]
fn entries_have_the_numbers_of_the_header() {
    let number = |name| defined().find(|&(stated, _)| stated == name).expect(name).1 as u32;
    let delay = Entry::from_word(number("ENTRY_DELAY") << 24 | 60_000);
    assert_eq!(delay, Some(Entry::Delay { cycles: 60_000 }));
    for &kind in WaitKind::ALL {
        let wait = number("ENTRY_WAIT") << 24 | u32::from(kind.number()) << 16 | 4_096;
        assert_eq!(
            Entry::from_word(wait),
            Some(Entry::Wait {
                kind,
                answers: 4_096
            })
        );
    }
    let known = (0..=255).filter(|number| Entry::from_word(number << 24 | 0x01_0000).is_some());
    assert!(known.eq((1..=34).chain([48, 49])));
}

/// The names of an enum of the header, in its order.
fn enumerators(from: &str, prefix: &str) -> Vec<String> {
    let name = |line: &str| {
        let name = line.trim().strip_prefix(prefix)?;
        let end = name.find(|letter: char| letter != '_' && !letter.is_alphanumeric());
        Some(name[..end.unwrap_or(name.len())].to_lowercase())
    };
    between(from, "\n}").lines().filter_map(name).collect()
}

#[test]
fn frequencies_are_in_the_order_of_the_header() {
    // Clocks are named as in the HAL: clk_usb, and pclk for PCLK1.
    let numbers = std::array::from_fn(|index| index as u32 + 1);
    let clocks = format!("{:?}", Clocks::from(numbers)).replace("clk_", "");
    for (name, number) in enumerators("enum rikkovan_clock {", "RIKKOVAN_CLOCK_")
        .iter()
        .zip(1..)
    {
        let name = if name == "pclk1" { "pclk" } else { name };
        let field = format!(" {name}: {:?}", Some(Hertz(number)));
        assert!(clocks.contains(&field), "{field} in {clocks}");
    }
    let numbers = std::array::from_fn(|index| index as u32 + 1);
    let clocks = format!("{:?}", LpsysClocks::from(numbers));
    for (name, number) in enumerators("rikkovan_lpsys_clock {", "RIKKOVAN_LPSYS_")
        .iter()
        .zip(1..)
    {
        let field = format!(" {name}: {:?}", Some(Hertz(number)));
        assert!(clocks.contains(&field), "{field} in {clocks}");
    }
}
