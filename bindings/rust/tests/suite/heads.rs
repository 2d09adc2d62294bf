//! Heads and their bytes.

use crate::{example, examples, head};
use rikkovan::{bytes, load_check, Head, LookUp, Refusal, Register, Task, LPSYS_CLOCKS};

#[test]
fn a_new_head_is_accepted() {
    let new = Head::new();
    assert_eq!(Head::from_bytes(new.as_bytes()), Ok(new.clone()));
    assert_eq!(new.tasks().len(), 0);
    assert!(Register::ALL
        .iter()
        .all(|&register| new.register(register) == 0));
}

#[test]
fn every_example_is_accepted() {
    for file in examples("heads")
        .iter()
        .filter(|file| file.ends_with(".head"))
    {
        let head = Head::from_bytes(&example(file)).expect(file);
        assert_eq!(head.as_bytes()[..], example(file));
        let tasks: Vec<Task> = head.tasks().collect();
        assert_eq!(load_check(&tasks), Ok(head.load()));
    }
}

#[test]
fn every_byte_changed_is_accepted_as_the_library_has_it() {
    let good = *head("s240-tasks").as_bytes();
    for place in 0..Head::BYTES {
        for byte in 0..=255 {
            let mut buffer = good;
            buffer[place] = byte;
            let word = bytes::read_lpsys(&buffer, &mut [0; LPSYS_CLOCKS]);
            let head = Head::from_bytes(&buffer);
            assert_eq!(head.as_ref().err().copied(), word.refusal());
            assert!(head.is_err() || head.is_ok_and(|head| head.as_bytes() == &buffer));
        }
    }
}

#[test]
fn every_wrong_length_is_refused() {
    for length in (0..=300).filter(|&length| length != Head::BYTES) {
        let mut buffer = head("s240").as_bytes().to_vec();
        buffer.resize(length, 0);
        assert_eq!(Head::from_bytes(&buffer), Err(Refusal::Length));
    }
}

#[test]
fn a_register_takes_what_it_may_hold() {
    for &register in Register::ALL {
        for value in [
            0,
            1,
            0xF,
            0x10,
            0x3FF,
            0x400,
            0x01_010F,
            0xFF_0707,
            0xFF_FFFF,
            0x0100_0000,
        ] {
            let mut changed = Head::new();
            match changed.set_register(register, value) {
                Ok(()) => assert_eq!(changed.register(register), value),
                Err(refusal) => {
                    assert_eq!(refusal, Refusal::Code);
                    assert_eq!(changed, Head::new());
                }
            }
        }
    }
    let mut head = Head::new();
    assert_eq!(head.set_register(Register::HrcTrim, 1023), Ok(()));
    assert_eq!(
        head.set_register(Register::HrcTrim, 1024),
        Err(Refusal::Code)
    );
    assert_eq!(head.set_register(Register::Tick, 1), Err(Refusal::Code));
}

#[test]
fn every_list_of_tasks() {
    for file in examples("tasks") {
        let list = example(&file);
        let records = list.chunks_exact(Task::BYTES);
        let is_whole = records.remainder().is_empty();
        let tasks = records.map(|record| Task::from_record(record.try_into().expect("nine bytes")));
        let tasks: Vec<Task> = tasks.collect();
        let expected = match bytes::load_check(&list) {
            load if load >> 63 == 0 => Ok(load),
            refused => Err(Refusal::from_number(refused as u32).expect("a refusal")),
        };
        match is_whole {
            true => assert_eq!(load_check(&tasks), expected, "{file}"),
            false => assert_eq!(expected, Err(Refusal::Length), "{file}"),
        }
    }
}

#[test]
fn the_largest_load() {
    let task = |id| Task {
        id,
        cycles: u32::MAX,
        period_us: 1,
    };
    let tasks: Vec<Task> = (1..=16).map(task).collect();
    assert_eq!(load_check(&tasks), Ok(68_719_476_720_000_000));
    for most in [17, 18, 255] {
        let tasks: Vec<Task> = (1..=most).map(task).collect();
        assert_eq!(load_check(&tasks), Err(Refusal::Tasks));
    }
}

#[test]
fn every_id_is_looked_up_as_it_is_released() {
    let mut booked = head("s240");
    for count in 0..=Task::MOST {
        for id in 0..=255 {
            let found = booked.tasks().position(|task| task.id == id);
            let expected = match found {
                Some(place) => LookUp::Hit { read: place + 1 },
                None => LookUp::Miss { read: count },
            };
            assert_eq!(booked.look_up(id), expected);
            assert_eq!(booked.look_up(id).place(), found);
            assert_eq!(booked.clone().release(id).is_ok(), found.is_some());
        }
        let task = Task {
            id: 255 - 3 * count as u8,
            cycles: 1,
            period_us: 1_000,
        };
        let refusal = (count == Task::MOST).then_some(Refusal::Tasks);
        assert_eq!(booked.book(task).err(), refusal);
    }
}

#[test]
fn what_is_shared_between_threads() {
    fn is_shared<T: Send + Sync + 'static>() {}
    is_shared::<Head>();
    is_shared::<rikkovan::Plan>();
    is_shared::<rikkovan::Done<rikkovan::Booted>>();
    is_shared::<rikkovan::Refused>();
    is_shared::<rikkovan::Journal>();
}
