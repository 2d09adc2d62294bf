//! Plans, their records and the builder with the HAL's names.

use crate::{example, examples};
use rikkovan::rcc::{
    ClockMux, ConfigBuilder, Dll, DllStage, HclkPrescaler, Mpisel, PclkPrescaler, Perisel, Sysclk,
    Usbsel, Wdtsel,
};
use rikkovan::{bytes, Plan, Refusal};

/// A record, the plan of it and its verdict agree with what the library answers.
fn agrees(record: &[u8]) {
    let refusal = Refusal::from_number(bytes::plan_check(record) as u32);
    match Plan::from_record(record) {
        Ok(plan) => {
            assert_eq!(plan.to_record()[..], *record);
            assert_eq!(plan.check().err(), refusal, "{record:?}");
            assert_eq!(Plan::from(ConfigBuilder::from(plan)), plan);
        }
        Err(found) => {
            assert_eq!(Some(found), refusal, "{record:?}");
            assert!(found.number() <= 3);
        }
    }
}

#[test]
fn every_record_with_one_byte_changed() {
    let low_power = example("plans/low-power-24.plan");
    for plan in [&Plan::DEFAULT.to_record()[..], &low_power] {
        for place in 0..Plan::BYTES {
            for byte in 0..=255 {
                let mut record = plan.to_vec();
                record[place] = byte;
                agrees(&record);
            }
        }
    }
}

#[test]
fn every_length() {
    for length in 0..=300 {
        let mut record = Plan::DEFAULT.to_record().to_vec();
        record.resize(length, 0);
        agrees(&record);
    }
}

#[test]
fn every_example() {
    for file in examples("plans") {
        agrees(&example(&file));
    }
}

#[test]
fn choices_of_selects_and_dlls() {
    let dlls = [None, Some(Dll::new()), Some(Dll::new().with_out_div2(true))];
    for (&core, &pdiv1) in Sysclk::ALL.iter().zip(PclkPrescaler::ALL) {
        for (dll1, dll2) in dlls.iter().flat_map(|&one| dlls.map(|two| (one, two))) {
            for (&mpi1, &mpi2) in Mpisel::ALL.iter().zip(Mpisel::ALL.iter().rev()) {
                let plan = Plan {
                    core,
                    pdiv1,
                    dll1,
                    dll2,
                    mpi1,
                    mpi2,
                    ..Plan::DEFAULT
                };
                agrees(&plan.to_record());
            }
        }
    }
}

#[test]
fn the_builder_has_the_plans_of_the_hal() {
    assert_eq!(Plan::from(ConfigBuilder::new()), Plan::DEFAULT);
    assert_eq!(Plan::from(ConfigBuilder::default()), Plan::default());
    let sysclk = Plan {
        core: Sysclk::Hxt48,
        hdiv: 1,
        pdiv1: PclkPrescaler::Div1,
        pdiv2: PclkPrescaler::Div1,
        dll1: None,
        dll2: None,
        calibrate: false,
        usb: false,
        wdt: Wdtsel::Lrc32,
        usb_source: Usbsel::Sysclk,
        peripheral: Perisel::Hxt48,
        mpi1: Mpisel::Peri,
        mpi2: Mpisel::Peri,
    };
    assert_eq!(Plan::from(ConfigBuilder::sysclk()), sysclk);
    assert_eq!(ConfigBuilder::sysclk().check(), Err(Refusal::Pclk2));
}

#[test]
fn the_builder_sets_what_its_methods_name() {
    let mux = ClockMux::new()
        .with_wdtsel(Wdtsel::Lrc10)
        .with_usbsel(Usbsel::Dll2)
        .with_perisel(Perisel::Hrc48)
        .with_mpi1sel(Mpisel::Dll1)
        .with_mpi2sel(Mpisel::Peri);
    let builder = ConfigBuilder::sysclk()
        .with_sys(Sysclk::Dll1)
        .with_hdiv(HclkPrescaler::new(2))
        .with_pdiv1(PclkPrescaler::Div4)
        .with_pdiv2(PclkPrescaler::Div32)
        .with_dll1(Dll::new().with_stg(DllStage::Mul10))
        .with_dll2(Dll::new().with_stg(DllStage::Mul5).with_out_div2(true))
        .with_hrc48_calibrate(true)
        .with_usb(true)
        .with_mux(mux);
    let record = [0, 18, 1, 3, 2, 2, 5, 1, 9, 0, 1, 4, 1, 1, 1, 0, 1, 0, 1, 0];
    assert_eq!(builder.checked().map(|plan| plan.to_record()), Ok(record));
}
