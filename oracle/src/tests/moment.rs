use super::{at_48_mhz, entries};
use crate::change::change;
use crate::moment::{bytes, entries as from_bytes, moment};
use crate::plan::DEFAULT;

#[test]
fn stores_are_put_in() {
    let head = at_48_mhz();
    let stores = entries(&[
        (1, 3),
        (2, 0x01_0106),
        (48, 60_000),
        (49, 0x03_0001),
        (1, 0),
    ]);
    let after = moment(&head, &stores).unwrap();
    assert_eq!(after.registers[1], 0);
    assert_eq!(after.registers[2], 0x01_0106);
    assert_eq!(moment(&head, &[]), Ok(head.clone()));
    let mut same = after;
    same.registers = head.registers;
    assert_eq!(same, head);
}

#[test]
fn words_that_are_no_entries() {
    let head = at_48_mhz();
    for (number, value) in [
        (0, 0),
        (1, 4),
        (1, 0x01_0000),
        (9, 1),
        (35, 0),
        (47, 0),
        (50, 0),
    ] {
        let words = entries(&[(1, 0), (number, value)]);
        assert_eq!(moment(&head, &words), Err(3), "{number} {value}");
    }
    assert!(moment(&head, &entries(&[(19, 1023), (34, 0xFFFF)])).is_ok());
}

/// The last moment of a change has the registers that it returns.
#[test]
fn last_moment_of_a_change() {
    let mut head = at_48_mhz();
    head.registers[12] = 1;
    head.registers[15] = 10;
    head.registers[16] = 8;
    head.registers[26] = 0x02_0000;
    let outcome = change(&head, &DEFAULT, &[0, 1]).unwrap();
    assert_eq!(outcome.answer, 0);
    assert_eq!(moment(&head, &outcome.entries), Ok(outcome.head));
}

#[test]
fn words_as_bytes() {
    let words = entries(&[(1, 3), (49, 0x03_0001)]);
    assert_eq!(from_bytes(&bytes(&words)), words);
    assert_eq!(from_bytes(&[1, 0, 0, 3, 1]), [words[0]]);
}
