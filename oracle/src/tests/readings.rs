use super::{at_48_mhz, at_240_mhz, on_dbl96};
use crate::head::Head;
use crate::readings::{both, read_clocks, read_lpsys};

const MHZ: u32 = 1_000_000;

/// Where each frequency of `Clocks` stands.
const HPSYS: [usize; 4] = [0, 1, 2, 3];
const DLLS: [usize; 2] = [4, 5];
const USB: usize = 8;
const WDT: usize = 9;
const FLASH: [usize; 2] = [11, 12];

#[test]
fn on_hxt48() {
    let mhz = [48, 48, 48, 48, 0, 0, 48, 24, 48];
    let mut expected = [0; 15];
    expected[..9].copy_from_slice(&mhz.map(|number| number * MHZ));
    expected[9..13].copy_from_slice(&[100_000, 100_000, 48 * MHZ, 48 * MHZ]);
    assert_eq!(read_clocks(&at_48_mhz()), expected);
    let mut head = at_48_mhz();
    head.hxt48_ready = false;
    expected[..4].fill(0);
    expected[USB] = 0;
    assert_eq!(read_clocks(&head), expected);
}

#[test]
fn on_dll1() {
    let mut head = at_240_mhz();
    head.registers[8] = 4;
    head.registers[10] = 1;
    let clocks = read_clocks(&head);
    let expected = [240 * MHZ, 240 * MHZ, 120 * MHZ, 3_750_000];
    assert_eq!(HPSYS.map(|index| clocks[index]), expected);
    assert_eq!(DLLS.map(|index| clocks[index]), [240 * MHZ, 0]);
    assert_eq!((clocks[USB], clocks[WDT]), (60 * MHZ, 32_000));
    head.registers[3] = 0x000109;
    assert_eq!(read_clocks(&head)[..6], [0; 6]);
}

/// DBL96 reads as none; DLL2 does not need the core for USB.
#[test]
fn without_core_clock() {
    let mut head = on_dbl96();
    assert_eq!(read_clocks(&head)[..6], [0; 6]);
    assert_eq!(read_clocks(&head)[USB], 0);
    head.registers[4] = 0x01010E;
    head.registers[7] = 1;
    head.registers[8] = 3;
    let clocks = read_clocks(&head);
    assert_eq!((clocks[DLLS[1]], clocks[USB]), (180 * MHZ, 60 * MHZ));
}

/// A reserved flash select reads as 48 MHz, one on a DLL that is off as none.
#[test]
fn flash_selects() {
    let mut head = at_240_mhz();
    for (selects, mhz) in [
        (0x0000, [48, 48]),
        (0x0103, [240, 48]),
        (0x0201, [0, 240]),
        (0x0302, [48, 0]),
    ] {
        head.registers[5] = selects;
        let clocks = read_clocks(&head);
        let expected = mhz.map(|number| number * MHZ);
        assert_eq!(FLASH.map(|index| clocks[index]), expected);
    }
}

/// The largest dividers on the slowest clocks: no reading of 0 Hz.
#[test]
fn slowest() {
    let mut head = Head {
        hrc48_ready: true,
        ..Head::default()
    };
    head.registers[1] = 3;
    head.registers[2] = 0xFF0700;
    head.registers[3] = 0x010100;
    head.registers[26] = 0xFF0607;
    head.registers[27] = 1;
    head.registers[34] = 0x00FF00;
    let (clocks, lpsys) = both(head).unwrap();
    let expected = [12 * MHZ, 47_058, 367, 47_058];
    assert_eq!(HPSYS.map(|index| clocks[index]), expected);
    assert_eq!(lpsys, [48 * MHZ, 188_235, 2_941, 1_470, 0, 738]);
}

/// LPSYS reads HXT48 by the HPSYS flag.
#[test]
fn lpsys_sources() {
    let mut head = at_48_mhz();
    head.registers[25] = 1;
    head.lpsys_hxt48_ready = false;
    assert_eq!(read_lpsys(&head), [48 * MHZ; 6]);
    head.hxt48_ready = false;
    head.lpsys_hxt48_ready = true;
    assert_eq!(read_lpsys(&head), [0, 0, 0, 0, 48 * MHZ, 0]);
}
