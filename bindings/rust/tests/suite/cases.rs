//! The worked cases of document 01, those with a star, and of document 02.

use crate::{changed, head, plan, stores, waits};
use rikkovan::rcc::{Dll, DllStage, PclkPrescaler};
use rikkovan::{
    Entry, Head, Hertz, Journal, Megahertz, Outcome, Plan, Refusal, Register, Task, WaitKind,
};

#[test]
fn the_default_plan() {
    let mut head = head("d48");
    let outcome = head.init(&Plan::DEFAULT, &mut Journal::new(), &[1, 0, 0, 1]);
    let clocks = outcome.expect("done").value.clocks;
    assert_eq!(clocks.hclk, Some(Hertz::mhz(240)));
    assert_eq!(clocks.pclk, Some(Hertz::mhz(120)));
    assert_eq!(clocks.pclk2, Some(Hertz::khz(3_750)));
    assert_eq!(clocks.clk_usb, Some(Hertz::mhz(60)));
    assert_eq!(head.register(Register::UsbDivider), 4);
}

#[test]
fn plans_with_one_change() {
    let check = |change| changed(change).check().map_err(Refusal::number);
    assert_eq!(check(|plan| plan.pdiv1 = PclkPrescaler::Div1), Err(12));
    assert_eq!(check(|plan| plan.pdiv2 = PclkPrescaler::Div16), Err(13));
    assert_eq!(check(|plan| plan.pdiv2 = PclkPrescaler::Div32), Ok(()));

    const STAGE_10: Dll = Dll::new().with_stg(DllStage::Mul11);
    assert_eq!(check(|plan| plan.dll1 = Some(STAGE_10)), Err(9));
    let without_usb = |plan: &mut Plan| {
        plan.dll1 = Some(STAGE_10);
        plan.usb = false;
    };
    assert_eq!(check(without_usb), Err(11));
    let halved = |plan: &mut Plan| {
        plan.dll1 = Some(Dll::new().with_out_div2(true));
        plan.usb = false;
    };
    assert_eq!(check(halved), Err(10));

    const STAGE_12: Dll = Dll::new().with_stg(DllStage::Mul13);
    assert_eq!(check(|plan| plan.dll2 = Some(STAGE_12)), Err(14));
}

#[test]
fn modes_by_the_voltages_of_a_change() {
    let volts = |name, register| {
        let mut head = head("s240");
        head.change(&plan(name), &mut Journal::new(), &[1])
            .expect(name);
        head.register(register)
    };
    assert_eq!(volts("low-power-24", Register::SetVoutM), 9);
    assert_eq!(volts("low-power-48", Register::SetVoutM), 10);
    assert_eq!(volts("dll1-144", Register::BuckVout), 13);
    assert_eq!(volts("default", Register::BuckVout), 15);
}

#[test]
fn lpsys_dividers() {
    for (request, divider) in [(48, 0), (25, 1), (24, 2), (7, 6), (1, 48)] {
        let mut head = head("d48");
        let outcome = head.config_lpsys_hclk_mhz(Megahertz(request), &mut Journal::new());
        assert!(outcome.is_ok());
        assert_eq!(head.register(Register::LpsysCfgr), divider << 16);
    }
}

/// Calibrates with the same counts in every measurement.
fn calibrate(hxt_cnt: u16, hrc_cnt: u16) -> (Outcome, Head, Journal) {
    let (mut head, mut journal) = (head("d48"), Journal::new());
    let answers: Vec<u16> = [1, hxt_cnt, hrc_cnt].repeat(11);
    let outcome = head.calibrate_hrc48(&mut journal, &answers);
    (outcome, head, journal)
}

#[test]
fn a_difference_of_63_ends_the_search() {
    let (outcome, head, journal) = calibrate(63, 0);
    assert_eq!(stores(&journal, Register::HrcTrim), [512]);
    assert_eq!(head.register(Register::HrcTrim), 512);
    assert_eq!(outcome.expect("done").taken, 3);
}

#[test]
fn a_difference_of_64_goes_on_to_the_end() {
    let trims = [512, 768, 896, 960, 992, 1008, 1016, 1020, 1022, 1023, 1023];
    let (outcome, _, journal) = calibrate(64, 0);
    assert!(outcome.is_ok());
    assert_eq!(stores(&journal, Register::HrcTrim), trims);
}

#[test]
fn a_last_difference_of_160_is_done_and_161_refused() {
    assert!(calibrate(160, 0).0.is_ok());
    let (outcome, _, journal) = calibrate(0, 161);
    assert_eq!(outcome.unwrap_err().refusal, Refusal::Difference);
    assert_eq!(journal.len(), 57);
    assert_eq!(waits(&journal, WaitKind::Calibration), [3; 11]);
}

#[test]
fn a_delay_of_250_us_at_240_mhz() {
    let (mut head, mut journal) = (head("s240"), Journal::new());
    for mhz in [24, 48] {
        head.config_lpsys_hclk_mhz(Megahertz(mhz), &mut journal)
            .expect("done");
    }
    let delay = Entry::Delay { cycles: 60_000 };
    assert!(journal.iter().any(|entry| entry == delay));
}

#[test]
fn delays_of_230_and_30_us_at_188_235_hz() {
    let (mut head, mut journal) = (head("s240"), Journal::new());
    for (register, value) in [(Register::Sysclk, 1), (Register::HpsysCfgr, 0xFF0000)] {
        head.set_register(register, value).expect("within its codes");
    }
    assert_eq!(head.clocks().hclk, Some(Hertz(188_235)));
    head.wake_lcpu(&mut journal, &[1, 1]).expect("done");
    for cycles in [44, 6] {
        let delay = Entry::Delay { cycles };
        assert!(journal.iter().any(|entry| entry == delay));
    }
}

#[test]
fn tasks_at_240_mhz() {
    let task = |id, cycles| Task {
        id,
        cycles,
        period_us: 1_000,
    };
    let mut booked = head("s240");
    booked.book(task(1, 120_000)).expect("booked");
    booked.book(task(2, 80_000)).expect("booked");
    assert_eq!(booked.clone().book(task(3, 40_000)), Ok(()));
    assert_eq!(booked.book(task(3, 64_000)), Err(Refusal::Load));
    assert_eq!(booked.load(), 200_000_000);
}
