use super::{at_48_mhz, at_240_mhz, on_dbl96};
use crate::change::{fit, is_fit};
use crate::head::{Head, Task};
use crate::random::Random;

/// A head at 48 MHz on D whose rails just carry it, LPSYS at 24 MHz on D.
fn carried() -> Head {
    let mut head = at_48_mhz();
    head.registers[12] = 1;
    head.registers[15] = 10;
    head.registers[16] = 8;
    head.registers[26] = 0x02_0000;
    head
}

fn clause(change: impl FnOnce(&mut Head)) -> u64 {
    let mut head = carried();
    change(&mut head);
    fit(&head)[2]
}

#[test]
fn limits_and_loads() {
    let mut head = carried();
    assert_eq!(fit(&head), [48_000_000, 0, 0]);
    head.registers[16] = 7;
    assert_eq!(fit(&head), [24_000_000, 0, 2]);
    head.registers[16] = 5;
    assert_eq!(fit(&head)[0], 0);
    head.tasks = [(1, 120_000), (2, 80_000)]
        .map(|(id, cycles)| Task {
            id,
            cycles,
            period_us: 1_000,
        })
        .to_vec();
    assert_eq!(fit(&head)[1], 200_000_000);
    assert_eq!(fit(&at_240_mhz())[2], 2);
}

#[test]
fn clauses() {
    assert_eq!(fit(&on_dbl96())[2], 1);
    assert_eq!(clause(|head| head.registers[15] = 9), 2);
    assert_eq!(clause(|head| head.registers[5] = 0x0100), 3);
    assert_eq!(clause(|head| head.registers[5] = 0x0002), 4);
    assert_eq!(clause(|head| head.registers[5] = 0x0303), 0);
    assert_eq!(clause(|head| head.hrc48_ready = false), 5);
    assert_eq!(clause(|head| head.registers[26] = 0), 6);
}

/// Where several fail, the first in the sentence's order is given.
#[test]
fn order() {
    let all = |head: &mut Head| {
        head.registers[5] = 0x0201;
        head.registers[15] = 0;
        head.hrc48_ready = false;
    };
    assert_eq!(clause(all), 2);
    let flash = |head: &mut Head| {
        head.registers[5] = 0x0201;
        head.hrc48_ready = false;
    };
    assert_eq!(clause(flash), 3);
}

/// No clause fails just where the head is fit.
#[test]
fn fit_heads() {
    let mut random = Random::new(0xF17);
    for _ in 0..10_000 {
        let head = Head::random(&mut random);
        assert_eq!(fit(&head)[2] == 0, is_fit(&head), "{head:?}");
    }
}
