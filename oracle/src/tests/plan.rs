use crate::plan::{DEFAULT, at, check};

/// The answer to the default plan with some bytes changed.
fn with(changes: &[(usize, u8)]) -> u64 {
    let mut plan = DEFAULT;
    for &(index, byte) in changes {
        plan[index] = byte;
    }
    check(&plan)
}

const STAGE1: usize = at::DLL1 + 1;
const HALF1: usize = at::DLL1 + 2;
const STAGE2: usize = at::DLL2 + 1;

#[test]
fn starred_cases() {
    assert_eq!(check(&DEFAULT), 0);
    assert_eq!(with(&[(at::PDIV1, 0)]), 12);
    assert_eq!(with(&[(at::PDIV2, 4)]), 13);
    assert_eq!(with(&[(at::PDIV2, 5)]), 0);
    assert_eq!(with(&[(STAGE1, 10)]), 9);
    assert_eq!(with(&[(STAGE1, 10), (at::USB, 0)]), 11);
    assert_eq!(with(&[(STAGE1, 0), (HALF1, 1), (at::USB, 0)]), 10);
    assert_eq!(with(&[(STAGE2, 12)]), 14);
}

#[test]
fn each_refusal() {
    assert_eq!(check(&[]), 1);
    assert_eq!(check(&DEFAULT[..19]), 1);
    assert_eq!(with(&[(1, 17)]), 1);
    assert_eq!(with(&[(at::VERSION, 2)]), 2);
    assert_eq!(with(&[(at::CORE, 4)]), 3);
    assert_eq!(with(&[(at::DLL1, 0)]), 3);
    assert_eq!(with(&[(at::DLL1, 0), (STAGE1, 0)]), 4);
    assert_eq!(with(&[(at::CORE, 2)]), 5);
    let without_dll2 = [(at::DLL2, 0), (STAGE2, 0), (at::MPI2, 0)];
    assert_eq!(with(&[&without_dll2[..], &[(at::MPI1, 2)]].concat()), 6);
    assert_eq!(with(&[&without_dll2[..], &[(at::MPI2, 2)]].concat()), 7);
    let usb_from_dll2 = [&without_dll2[..], &[(at::USB_SOURCE, 1)]].concat();
    assert_eq!(with(&usb_from_dll2), 8);
    assert_eq!(with(&without_dll2), 0);
}

#[test]
fn version_stands_before_codes() {
    assert_eq!(with(&[(at::VERSION, 2), (at::CORE, 4)]), 2);
    assert_eq!(with(&[(1, 19), (at::VERSION, 2)]), 1);
}

/// DLL2 at stage 12, halved, is refused: it is not halved before test 14.
#[test]
fn dll2_before_halving() {
    assert_eq!(with(&[(STAGE2, 12), (at::DLL2 + 2, 1)]), 14);
    assert_eq!(with(&[(STAGE2, 12), (at::HDIV, 5)]), 0);
}
