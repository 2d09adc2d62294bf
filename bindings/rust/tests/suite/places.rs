//! The places of fields in records, and those of `rikkovan.h`.

use crate::changed;
use crate::header::defined;
use rikkovan::rcc::{Dll, Mpisel, PclkPrescaler, Perisel, Sysclk, Usbsel, Wdtsel};
use rikkovan::{Plan, ReadyFlag, Task};

/// The names behind a prefix, with the places that they stand for.
fn places(prefix: &'static str) -> impl Iterator<Item = (&'static str, usize)> {
    let place = move |(name, number): (&'static str, u64)| {
        Some((name.strip_prefix(prefix)?, usize::try_from(number).ok()?))
    };
    defined().filter_map(place)
}

/// The byte of a plan's record that C has this name for.
fn field(plan: &Plan, name: &str) -> u8 {
    let stage = |dll: Option<Dll>| dll.map_or(0, |dll| dll.stg.number());
    let half = |dll: Option<Dll>| dll.is_some_and(|dll| dll.out_div2).into();
    match name {
        "LENGTH" => 0,
        "VERSION" => 1,
        "CORE" => plan.core.number(),
        "HDIV" => plan.hdiv,
        "PDIV1" => plan.pdiv1.number(),
        "PDIV2" => plan.pdiv2.number(),
        "DLL1_PRESENT" => plan.dll1.is_some().into(),
        "DLL1_STAGE" => stage(plan.dll1),
        "DLL1_HALF" => half(plan.dll1),
        "DLL2_PRESENT" => plan.dll2.is_some().into(),
        "DLL2_STAGE" => stage(plan.dll2),
        "DLL2_HALF" => half(plan.dll2),
        "CALIBRATE" => plan.calibrate.into(),
        "USB" => plan.usb.into(),
        "WDT" => plan.wdt.number(),
        "USB_SOURCE" => plan.usb_source.number(),
        "PERIPHERAL" => plan.peripheral.number(),
        "MPI1" => plan.mpi1.number(),
        "MPI2" => plan.mpi2.number(),
        other => panic!("{other}"),
    }
}

#[test]
fn of_a_plan() {
    // Each field differs from the default plan's in one of them.
    let changes: [fn(&mut Plan); 16] = [
        |_| (),
        |plan| plan.core = Sysclk::Hxt48,
        |plan| plan.hdiv = 99,
        |plan| plan.pdiv1 = PclkPrescaler::Div8,
        |plan| plan.pdiv2 = PclkPrescaler::Div8,
        |plan| plan.dll1 = None,
        |plan| plan.dll1 = Some(Dll::new().with_out_div2(true)),
        |plan| plan.dll2 = None,
        |plan| plan.dll2 = Some(Dll::new().with_out_div2(true)),
        |plan| plan.calibrate = false,
        |plan| plan.usb = false,
        |plan| plan.wdt = Wdtsel::Lrc10,
        |plan| plan.usb_source = Usbsel::Dll2,
        |plan| plan.peripheral = Perisel::Hrc48,
        |plan| plan.mpi1 = Mpisel::Dll1,
        |plan| plan.mpi2 = Mpisel::Dll1,
    ];
    for plan in changes.map(changed) {
        let record = plan.to_record();
        for (name, place) in places("PLAN_AT_") {
            assert_eq!(record[place], field(&plan, name), "{name} of {plan:?}");
        }
    }
}

#[test]
fn of_a_head() {
    for unready in ReadyFlag::ALL {
        let mut head = crate::head("s240-tasks");
        head.set_boot_mode(3);
        head.set_wake_count(200);
        head.set_ready(*unready, false);
        for (name, place) in places("HEAD_AT_") {
            let expected = match name {
                "LENGTH" => 0,
                "VERSION" => 1,
                "HXT48_READY" => head.is_ready(ReadyFlag::Hxt48).into(),
                "HRC48_READY" => head.is_ready(ReadyFlag::Hrc48).into(),
                "LPSYS_HXT48_READY" => head.is_ready(ReadyFlag::LpsysHxt48).into(),
                "BOOT_MODE" => 3,
                "WAKE_COUNT" => 200,
                "TASK_COUNT" => 2,
                other => panic!("{other}"),
            };
            assert_eq!(head.as_bytes()[place], expected, "{name}");
        }
    }
}

#[test]
fn of_a_task() {
    let task = Task {
        id: 7,
        cycles: 0x0102_0304,
        period_us: 0x0006_0708,
    };
    let record = task.to_record();
    for (name, place) in places("TASK_AT_") {
        match name {
            "ID" => assert_eq!(record[place], 7),
            "CYCLES" => assert_eq!(record[place..place + 4], [1, 2, 3, 4]),
            "PERIOD" => assert_eq!(record[place..place + 4], [0, 6, 7, 8]),
            other => panic!("{other}"),
        }
    }
    assert_eq!(Task::from_record(record), task);
}
