use super::{at_48_mhz, at_240_mhz, on_dbl96};
use crate::head::{BUFFER, Head, Task, decode};
use crate::lent::REFUSED;
use crate::query::{Id, Query, call};
use crate::random::Random;
use crate::tasks::LookUp::{Hit, Miss};
use crate::tasks::{LOOK_UPS, book, load, load_check, look_up, release, share};

fn task(id: u8, cycles: u32, period_us: u32) -> Task {
    Task {
        id,
        cycles,
        period_us,
    }
}

fn list(tasks: &[Task]) -> Vec<u8> {
    tasks.iter().flat_map(Task::encode).collect()
}

/// The head with tasks of one million cycles a second, ids from 1 on.
fn with_tasks(mut head: Head, count: u8) -> Head {
    head.tasks = (1..=count).map(|id| task(id, 1_000, 1_000)).collect();
    head
}

fn ids(head: &Head) -> Vec<u8> {
    head.tasks.iter().map(|task| task.id).collect()
}

#[test]
fn shares_round_up() {
    let cases = [
        (1, 1, 1_000_000),
        (1, 1_000_000, 1),
        (1, 999_999, 2),
        (1, 10_000_000, 1),
        (10, 10_000_000, 1),
        (11, 10_000_000, 2),
        (1, 3, 333_334),
        (2, 3, 666_667),
        (3, 3, 1_000_000),
        (120_000, 1_000, 120_000_000),
        (u32::MAX, 1, 4_294_967_295_000_000),
        (u32::MAX, 10_000_000, 429_496_730),
    ];
    for (cycles, period, wanted) in cases {
        assert_eq!(share(&task(1, cycles, period)), wanted, "{cycles} {period}");
    }
}

/// Each share is rounded, not their sum.
#[test]
fn loads() {
    assert_eq!(load(&[]), 0);
    assert_eq!(load(&[task(1, 1, 3), task(2, 1, 3)]), 666_668);
    let largest: Vec<Task> = (1..=16).map(|id| task(id, u32::MAX, 1)).collect();
    assert_eq!(load(&largest), 68_719_476_720_000_000);
    assert_eq!(load_check(&list(&largest)), Ok(68_719_476_720_000_000));
}

/// The case of document 01: at 240 MHz with a period of 1,000.
#[test]
fn the_case_of_document_01() {
    let head = book(&at_240_mhz(), task(1, 120_000, 1_000)).unwrap();
    let head = book(&head, task(2, 80_000, 1_000)).unwrap();
    assert_eq!(load(&head.tasks), 200_000_000);
    let full = book(&head, task(3, 40_000, 1_000)).unwrap();
    assert_eq!(load(&full.tasks), 240_000_000);
    assert_eq!(ids(&full), [1, 2, 3]);
    assert_eq!(book(&head, task(3, 64_000, 1_000)), Err(39));
}

#[test]
fn load_check_in_its_order() {
    let good = [task(1, 120_000, 1_000), task(2, 80_000, 1_000)];
    assert_eq!(load_check(&[]), Ok(0));
    assert_eq!(load_check(&list(&good)), Ok(200_000_000));
    for length in [1, 8, 10, 17, 145, 152] {
        assert_eq!(load_check(&vec![0; length]), Err(1), "{length}");
    }
    assert_eq!(load_check(&[0; 9 * 17]), Err(41));
    assert_eq!(load_check(&[0; 9 * 16]), Err(16));
    let alike = [good[0], good[0]];
    assert_eq!(load_check(&list(&alike)), Err(40));
    let last_is_bad = [good[0], good[0], task(3, 1, 0)];
    assert_eq!(load_check(&list(&last_is_bad)), Err(16));
    for bad in [
        task(0, 1, 1),
        task(1, 0, 1),
        task(1, 1, 0),
        task(1, 1, 10_000_001),
        task(1, 1, u32::MAX),
    ] {
        assert_eq!(load_check(&list(&[bad])), Err(16), "{bad:?}");
        assert_eq!(book(&at_48_mhz(), bad), Err(16), "{bad:?}");
    }
    assert_eq!(load_check(&list(&[task(255, 1, 10_000_000)])), Ok(1));
}

/// A booking that every test would refuse, then with one fault less each time.
#[test]
fn booking_in_its_order() {
    let full = with_tasks(on_dbl96(), 16);
    assert_eq!(book(&full, task(7, 0, 1)), Err(16));
    assert_eq!(book(&full, task(7, u32::MAX, 1)), Err(40));
    assert_eq!(book(&full, task(17, u32::MAX, 1)), Err(41));
    let room = with_tasks(on_dbl96(), 15);
    assert_eq!(book(&room, task(17, u32::MAX, 1)), Err(34));
    let room = with_tasks(at_48_mhz(), 15);
    assert_eq!(book(&room, task(17, u32::MAX, 1)), Err(39));
    assert_eq!(
        book(&room, task(17, 33_000, 1_000)).unwrap().tasks.len(),
        16
    );
    assert_eq!(book(&room, task(17, 33_001, 1_000)), Err(39));
}

/// 48 MHz is reached by rounding up, and passed by one cycle in ten seconds.
#[test]
fn up_to_hclk() {
    let head = at_48_mhz();
    assert!(book(&head, task(1, 479_999_991, 10_000_000)).is_ok());
    assert!(book(&head, task(1, 480_000_000, 10_000_000)).is_ok());
    assert_eq!(book(&head, task(1, 480_000_001, 10_000_000)), Err(39));
    let first = book(&head, task(1, 1, 3)).unwrap();
    let rest = 48_000_000 - 333_334;
    assert!(book(&first, task(2, rest, 1_000_000)).is_ok());
    assert_eq!(book(&first, task(2, rest + 1, 1_000_000)), Err(39));
}

/// A head may come with more than its HCLK carries: nothing more is booked, and
/// a release is done.
#[test]
fn overloaded() {
    let mut head = at_48_mhz();
    head.tasks = vec![task(9, u32::MAX, 1), task(4, 1, 1)];
    assert_eq!(book(&head, task(1, 1, 10_000_000)), Err(39));
    let head = release(&head, 9).unwrap();
    assert!(book(&head, task(1, 1, 10_000_000)).is_ok());
}

#[test]
fn releases() {
    let head = with_tasks(on_dbl96(), 3);
    assert_eq!(ids(&release(&head, 1).unwrap()), [2, 3]);
    assert_eq!(ids(&release(&head, 2).unwrap()), [1, 3]);
    assert_eq!(ids(&release(&head, 3).unwrap()), [1, 2]);
    for unknown in [0, 4, 255] {
        assert_eq!(release(&head, unknown), Err(42));
    }
    assert_eq!(release(&with_tasks(at_48_mhz(), 0), 1), Err(42));
}

/// Each of three ids, ids that no task has, and the same after a release.
#[test]
fn look_ups() {
    let head = with_tasks(on_dbl96(), 3);
    assert_eq!(look_up(&head, 1), Hit(1));
    assert_eq!(look_up(&head, 2), Hit(2));
    assert_eq!(look_up(&head, 3), Hit(3));
    for unknown in [0, 4, 255] {
        assert_eq!(look_up(&head, unknown), Miss(3));
    }
    assert_eq!(look_up(&with_tasks(on_dbl96(), 0), 1), Miss(0));
    let moved_up = release(&head, 1).unwrap();
    assert_eq!(look_up(&moved_up, 3), Hit(2));
    assert_eq!(look_up(&moved_up, 1), Miss(2));
}

/// Every hit and every miss; the values are just those that are listed, and the bytes
/// stay.
#[test]
fn values_of_look_ups() {
    let mut values = Vec::<usize>::new();
    for count in 0..=16 {
        let mut buffer = [0xEE; BUFFER];
        with_tasks(at_48_mhz(), count).encode(&mut buffer);
        for id in 0..=17u8 {
            let query = Query {
                arguments: [id.into(), 0, 0],
                ..Query::on(call(Id::LookUp), &buffer)
            };
            let left = query.wanted();
            let value = match (1..=count).contains(&id) {
                true => 2 * id + 1,
                false => 2 * count,
            };
            assert_eq!(left.word, value.into());
            assert_eq!(left.bytes(), buffer);
            values.push(value.into());
        }
    }
    values.sort();
    values.dedup();
    assert_eq!(values, LOOK_UPS);
    let refused = Query::on(call(Id::LookUp), &[0; 7]).wanted();
    assert_eq!(refused.word, REFUSED | 1);
}

/// The bytes past the record: a booking changes those of its task, a release
/// leaves the last task's former place as it was.
#[test]
fn bytes() {
    let before = with_tasks(at_48_mhz(), 2);
    let mut buffer = [0xEE; BUFFER];
    before.encode(&mut buffer);
    let after = book(&before, task(200, 0x01020304, 10_000_000)).unwrap();
    after.encode(&mut buffer);
    assert_eq!(buffer[..2], [0, 109 + 27]);
    assert_eq!(buffer[110], 3);
    assert_eq!(buffer[129..138], [200, 1, 2, 3, 4, 0x00, 0x98, 0x96, 0x80]);
    assert!(buffer[138..].iter().all(|&byte| byte == 0xEE));
    let mut released = buffer;
    release(&after, 1).unwrap().encode(&mut released);
    assert_eq!(released[..2], [0, 109 + 18]);
    assert_eq!(released[110], 2);
    assert_eq!(released[111..129], buffer[120..138]);
    assert_eq!(released[129..], buffer[129..]);
}

/// A booking and its release give the head back, and every head made is a record
/// whose load check agrees.
#[test]
fn on_random_heads() {
    let mut random = Random::new(7);
    let mut done = 0;
    for _ in 0..20_000 {
        let mut head = Head::random(&mut random);
        head.tasks.truncate(random.below(17));
        for task in &mut head.tasks {
            task.cycles >>= 8;
        }
        let new = task(
            255,
            1 + random.below(1 << 20) as u32,
            1 + random.below(10_000_000) as u32,
        );
        assert_eq!(load_check(&list(&head.tasks)), Ok(load(&head.tasks)));
        for id in [0, 1, 16, 100, 255] {
            let is_hit = matches!(look_up(&head, id), Hit(_));
            assert_eq!(is_hit, release(&head, id).is_ok());
            assert_eq!(is_hit, book(&head, task(id, 1, 1)) == Err(40));
        }
        let Ok(after) = book(&head, new) else {
            continue;
        };
        assert_eq!(look_up(&after, 255), Hit(after.tasks.len()));
        done += 1;
        let mut buffer = [0; BUFFER];
        after.encode(&mut buffer);
        assert_eq!(decode(&buffer).as_ref(), Ok(&after));
        assert_eq!(load(&after.tasks), load(&head.tasks) + share(&new));
        assert_eq!(release(&after, 255), Ok(head));
    }
    assert!(done > 1_000, "{done}");
}
