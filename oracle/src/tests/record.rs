use crate::call::admit;
use crate::head::{BUFFER, Head, Task, decode};

fn buffer(head: &Head) -> [u8; BUFFER] {
    let mut buffer = [0xEE; BUFFER];
    head.encode(&mut buffer);
    buffer
}

fn task(id: u8) -> Task {
    Task {
        id,
        cycles: 120_000,
        period_us: 1_000,
    }
}

fn full() -> Head {
    let mut head = Head {
        hrc48_ready: true,
        boot_mode: 200,
        wake_count: 7,
        tasks: (1..=16).map(task).collect(),
        ..Head::default()
    };
    head.registers[2] = 0xFF0707;
    head.registers[5] = 0x000303;
    head.registers[19] = 0x0003FF;
    head
}

#[test]
fn there_and_back() {
    assert_eq!(decode(&buffer(&full())), Ok(full()));
    assert_eq!(decode(&buffer(&Head::default())), Ok(Head::default()));
}

#[test]
fn bytes_past_the_record_stay() {
    assert!(buffer(&Head::default())[111..].iter().all(|&b| b == 0xEE));
}

#[test]
fn lengths() {
    let bytes = buffer(&full());
    assert_eq!(decode(&bytes[..254]), Err(1));
    let mut wrong = bytes;
    wrong[1] ^= 1;
    assert_eq!(decode(&wrong), Err(1));
    let mut seventeen = bytes;
    seventeen[..2].copy_from_slice(&(109u16 + 9 * 17).to_be_bytes());
    seventeen[110] = 17;
    assert_eq!(decode(&seventeen), Err(1));
}

/// Bytes one above their largest value: a register's a, b, c, then flags and tasks.
#[test]
fn bytes_outside_their_codes() {
    let at = |number: usize, byte: usize| 3 * number + byte;
    let cases = [
        (at(1, 2), 4),
        (at(1, 1), 1),
        (at(2, 1), 8),
        (at(3, 0), 2),
        (at(4, 2), 16),
        (at(5, 0), 1),
        (at(5, 1), 4),
        (at(9, 2), 1),
        (at(10, 2), 2),
        (at(13, 2), 16),
        (at(17, 0), 1),
        (at(19, 1), 4),
        (at(34, 0), 1),
        (105, 2),
        (107, 2),
        (111, 0),
        (120, 1),
    ];
    for (index, byte) in cases {
        let mut bytes = buffer(&full());
        bytes[index] = byte;
        assert_eq!(decode(&bytes), Err(3), "byte {index}");
    }
}

#[test]
fn order_of_tests() {
    let mut bytes = buffer(&full());
    bytes[2] = 2;
    bytes[3] = 1;
    assert_eq!(admit(&bytes, Some(127), Some(4097)), Err(17));
    assert_eq!(admit(&bytes, Some(128), Some(4097)), Err(18));
    assert_eq!(admit(&bytes, Some(128), Some(4096)), Err(2));
    bytes[2] = 1;
    assert_eq!(admit(&bytes, None, None), Err(3));
}
