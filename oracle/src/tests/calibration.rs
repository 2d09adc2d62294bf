use super::{at_48_mhz, entries, on_dbl96};
use crate::call::{self, Outcome};

/// Answers of so many measurements, each ready at its first poll.
fn measurements(number: usize, hxt_cnt: u16, hrc_cnt: u16) -> Vec<u16> {
    [1, hxt_cnt, hrc_cnt].repeat(number)
}

fn trims(outcome: &Outcome) -> Vec<u32> {
    let trims = outcome.entries.iter().filter(|&&entry| entry >> 24 == 19);
    trims.map(|entry| entry & 0xFFFFFF).collect()
}

#[test]
fn difference_63() {
    let outcome = call::calibrate_hrc48(&at_48_mhz(), &measurements(2, 1063, 1000));
    let expected = [
        (20, 0x3FFF),
        (18, 0x000303),
        (19, 512),
        (48, 144),
        (21, 1),
        (49, 0x050003),
        (21, 0),
    ];
    assert_eq!(outcome.entries, entries(&expected));
    assert_eq!((outcome.answer, outcome.taken), (0, 3));
}

#[test]
fn always_64() {
    let outcome = call::calibrate_hrc48(&at_48_mhz(), &measurements(11, 1064, 1000));
    assert_eq!((outcome.answer, outcome.taken), (0, 33));
    let expected = [512, 768, 896, 960, 992, 1008, 1016, 1020, 1022, 1023, 1023];
    assert_eq!(trims(&outcome), expected);
    assert_eq!(outcome.entries.len(), 57);
}

#[test]
fn final_difference() {
    let answers = measurements(11, 1000, 1160);
    assert_eq!(call::calibrate_hrc48(&at_48_mhz(), &answers).answer, 0);
    let outcome = call::calibrate_hrc48(&at_48_mhz(), &measurements(11, 1000, 1161));
    assert_eq!(outcome.answer, 33);
    assert_eq!(trims(&outcome).last(), Some(&1));
    assert_eq!(outcome.head.registers[19], 1);
}

#[test]
fn polls_before_ready() {
    let outcome = call::calibrate_hrc48(&at_48_mhz(), &[0, 0, 0, 2, 7, 7]);
    assert_eq!((outcome.answer, outcome.taken), (0, 6));
    assert_eq!(outcome.entries[5], 0x31050006);
}

#[test]
fn cut_short() {
    for lent in 0..3 {
        let outcome = call::calibrate_hrc48(&at_48_mhz(), &[1, 900, 900][..lent]);
        assert_eq!((outcome.answer, outcome.taken), (36, lent));
        assert_eq!(outcome.entries.len(), 5);
        assert_eq!(outcome.head.registers[21], 1);
    }
}

#[test]
fn without_hxt48() {
    let mut head = at_48_mhz();
    head.hxt48_ready = false;
    let outcome = call::calibrate_hrc48(&head, &[1, 1, 1]);
    assert_eq!((outcome.answer, outcome.taken), (31, 0));
    assert!(outcome.entries.is_empty());
    let outcome = call::calibrate_hrc48(&on_dbl96(), &[1, 1, 1]);
    assert_eq!((outcome.answer, outcome.entries.len()), (34, 3));
}
