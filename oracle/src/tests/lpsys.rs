use super::{at_48_mhz, at_240_mhz, entries, on_dbl96};
use crate::call;
use crate::head::{BUFFER, Head, decode};
use crate::pmu::dvfs::HpsysDvfsMode;
use crate::readings;

fn lpsys_at_48_on_s() -> Head {
    let mut head = at_240_mhz();
    head.registers[28] = 1;
    head
}

/// The example of `lpset`, from a head's bytes.
#[test]
fn request_20() {
    let mut buffer = [0; BUFFER];
    lpsys_at_48_on_s().encode(&mut buffer);
    let head = decode(&buffer).unwrap();
    let outcome = call::config_lpsys_hclk_mhz(&head, 20);
    assert_eq!(outcome.answer, 0);
    let expected = [(30, 6), (26, 0x020000), (31, 0x000162), (28, 0)];
    assert_eq!(outcome.entries, entries(&expected));
    assert_eq!(readings::read_lpsys(&outcome.head)[1], 24_000_000);
}

#[test]
fn dividers() {
    for (request, hdiv) in [(48, 0), (25, 1), (24, 2), (7, 6), (1, 48)] {
        let head = call::config_lpsys_hclk_mhz(&lpsys_at_48_on_s(), request).head;
        assert_eq!(head.registers[26] >> 16, hdiv, "request {request}");
    }
    assert_eq!(call::config_lpsys_hclk_mhz(&at_48_mhz(), 0).answer, 15);
    assert_eq!(call::config_lpsys_hclk_mhz(&at_48_mhz(), 49).answer, 15);
}

/// 250 us at 240 MHz are 60,000 cycles.
#[test]
fn from_d_to_s() {
    let mut head = at_240_mhz();
    head.registers[26] = 0x020000;
    let outcome = call::config_lpsys_hclk_mhz(&head, 48);
    let expected = [(29, 8), (28, 1), (48, 60_000), (26, 0)];
    assert_eq!(outcome.entries, entries(&expected));
    head.registers[1] = 2;
    let outcome = call::config_lpsys_hclk_mhz(&head, 48);
    assert_eq!(outcome.answer, 34);
    assert_eq!(outcome.entries, entries(&expected[..2]));
    assert_eq!(outcome.head.registers[28], 1);
}

#[test]
fn safe_frequency() {
    let outcome = call::ensure_safe_lcpu_frequency(&lpsys_at_48_on_s());
    assert_eq!((outcome.answer, outcome.value), (0, 48_000_000));
    assert_eq!(outcome.entries.len(), 4);
    let outcome = call::ensure_safe_lcpu_frequency(&outcome.head);
    assert_eq!((outcome.answer, outcome.value), (0, 24_000_000));
    assert!(outcome.entries.is_empty());
    let mut head = at_48_mhz();
    head.hrc48_ready = false;
    assert_eq!(call::ensure_safe_lcpu_frequency(&head).answer, 43);
}

#[test]
fn wake() {
    let outcome = call::wake_lcpu(&at_48_mhz(), &[0, 0, 5, 9, 1]);
    let expected = [
        (33, 1),
        (48, 11_040),
        (49, 0x060003),
        (48, 1_440),
        (49, 0x060001),
    ];
    assert_eq!(outcome.entries, entries(&expected));
    assert_eq!((outcome.answer, outcome.taken), (0, 4));
    assert_eq!(outcome.head.wake_count, 1);
}

#[test]
fn wake_cut_short() {
    let outcome = call::wake_lcpu(&at_48_mhz(), &[1, 0]);
    assert_eq!((outcome.answer, outcome.taken), (36, 2));
    let expected = [(33, 1), (48, 11_040), (49, 0x060001), (48, 1_440)];
    assert_eq!(outcome.entries, entries(&expected));
    assert_eq!(outcome.head.wake_count, 0);
    let outcome = call::wake_lcpu(&on_dbl96(), &[1, 1]);
    assert_eq!((outcome.answer, outcome.taken), (34, 0));
    assert_eq!(outcome.entries, entries(&[(33, 1)]));
}

/// The count wraps at 8 bits, and cancel clears the request from 1 to 0 only.
#[test]
fn wake_count() {
    let mut head = at_48_mhz();
    head.registers[33] = 1;
    for (before, after, stores) in [(0, 255, 0), (1, 0, 1), (2, 1, 0), (255, 254, 0)] {
        head.wake_count = before;
        let outcome = call::cancel_lcpu_active_request(&head);
        assert_eq!(outcome.head.wake_count, after);
        assert_eq!(outcome.entries.len(), stores);
        assert_eq!(outcome.head.registers[33], 1 - stores as u32);
    }
    head.wake_count = 255;
    assert_eq!(call::wake_lcpu(&head, &[1, 1]).head.wake_count, 0);
    assert_eq!(call::set_lpsys_hdiv(&head, 3).head.wake_count, 255);
}

#[test]
fn hxt48() {
    let mut head = at_48_mhz();
    assert!(call::ensure_hxt48_ready(&head, &[]).entries.is_empty());
    head.hxt48_ready = false;
    head.lpsys_hxt48_ready = false;
    let outcome = call::ensure_hxt48_ready(&head, &[0, 1, 0, 0, 1]);
    let expected = [(22, 1), (49, 0x010002), (32, 1), (49, 0x020003)];
    assert_eq!(outcome.entries, entries(&expected));
    assert!(outcome.head.hxt48_ready && outcome.head.lpsys_hxt48_ready);
    let outcome = call::ensure_hxt48_ready(&head, &[0, 1]);
    assert_eq!((outcome.answer, outcome.taken), (36, 2));
    assert_eq!(outcome.entries, entries(&expected[..3]));
    assert!(outcome.head.hxt48_ready && !outcome.head.lpsys_hxt48_ready);
}

#[test]
fn setters() {
    let head = at_48_mhz();
    let outcome = call::set_lpsys_div(&head, 200, 7, 5);
    assert_eq!(outcome.entries, entries(&[(26, 0xC80705)]));
    let outcome = call::set_lpsys_hdiv(&outcome.head, 1);
    assert_eq!(outcome.entries, entries(&[(26, 0x010705)]));
    let outcome = call::config_lpsys_mac_clock(&head, 6, 9);
    assert_eq!(outcome.entries, entries(&[(34, 0x000609)]));
    assert_eq!(readings::read_lpsys(&outcome.head)[5], 8_000_000);
    let outcome = call::select_lpsys_sysclk(&head, 1);
    assert_eq!(outcome.entries, entries(&[(25, 1)]));
    let outcome = call::select_lpsys_peri(&head, 1);
    assert_eq!(outcome.entries, entries(&[(27, 1)]));
    assert_eq!(call::set_lpsys_div(&head, 0, 8, 0).answer, 3);
    assert_eq!(call::set_lpsys_div(&head, 0, 0, 8).answer, 3);
    assert_eq!(call::select_lpsys_sysclk(&head, 2).answer, 3);
    assert_eq!(call::select_lpsys_peri(&head, 2).answer, 3);
}

#[test]
fn modes() {
    use HpsysDvfsMode::{D0, D1, S0, S1};
    let named = [(24, D0), (25, D1), (48, D1), (49, S0), (144, S0)];
    for (mhz, mode) in named.into_iter().chain([(145, S1), (240, S1)]) {
        assert_eq!(HpsysDvfsMode::from_frequency(mhz), Ok(mode));
    }
    assert!(HpsysDvfsMode::from_frequency(241).is_err());
}
