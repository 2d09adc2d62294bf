use crate::head::{Head, Task, at, decode};
use crate::lent::Lent;
use crate::plan::{DEFAULT, LENGTH, at as field};
use crate::query::{Id, JOURNAL, Owned, Query, call};
use crate::random::Random;
use crate::shrink::shrink;

fn bytes_of(head: &Head) -> Vec<u8> {
    let mut buffer = [0xEE; 255];
    head.encode(&mut buffer);
    buffer.to_vec()
}

/// A query with nothing in it that is plain.
fn any_query(id: Id) -> Owned {
    let mut head = Head::random(&mut Random::new(7));
    head.tasks = (1..=16)
        .map(|id| Task {
            id,
            cycles: 5,
            period_us: 9,
        })
        .collect();
    Owned {
        call: call(id),
        arguments: [47, 46, 45],
        plan: vec![0, 18, 1, 1, 9, 1, 5, 1, 4, 1, 1, 4, 1, 0, 0, 0, 1, 0, 1, 1],
        clocks: [5; 15],
        bytes: bytes_of(&head),
        journal: 1000,
        answers: (0..300).collect(),
    }
}

/// The LPSYS request as it would be if it left the supply at S above 30 MHz, where
/// LPSYS runs on S.
fn wrong_request(query: &Query, lent: Lent) -> u64 {
    let buffer: &mut [u8] = lent.bytes;
    let rest = Lent {
        bytes: &mut *buffer,
        clocks: lent.clocks,
        journal: lent.journal,
        delays: lent.delays,
    };
    let word = (query.call.wanted)(query, rest);
    if query.arguments[0] > 30 && query.bytes[at::c(28)] == 1 {
        buffer[at::c(28)] ^= 1;
    }
    word
}

#[test]
fn a_wrong_model_is_shown_by_the_smallest_query() {
    let mut query = any_query(Id::Request);
    query.bytes[at::c(28)] = 1;
    let differs = |query: &Query| query.by(wrong_request) != query.wanted();
    assert!(differs(&query.query()));
    let smallest = shrink(&query.query(), differs);
    let mut head = Head::plain();
    head.registers[28] = 1;
    assert_eq!(smallest.arguments, [31, 0, 0]);
    assert_eq!(decode(&smallest.bytes), Ok(head));
    assert_eq!(smallest.bytes[at::TASKS..], [0; 144]);
    assert_eq!(smallest.journal, JOURNAL);
    assert_eq!(smallest.answers, []);
}

#[test]
fn answers_are_as_few_and_as_small_as_they_can_be() {
    let shows = |query: &Query| query.answers.get(5).is_some_and(|&answer| answer > 2);
    let smallest = shrink(&any_query(Id::Wake).query(), shows);
    assert_eq!(smallest.answers, [0, 0, 0, 0, 0, 3]);
    let shows = |query: &Query| query.answers.iter().any(|&answer| answer > 200);
    let smallest = shrink(&any_query(Id::Wake).query(), shows);
    assert_eq!(smallest.answers, [201]);
}

#[test]
fn a_plan_goes_back_to_the_default_plan() {
    let shows = |query: &Query| query.plan.len() == LENGTH && query.plan[field::HDIV] >= 3;
    let smallest = shrink(&any_query(Id::Init).query(), shows);
    let mut plan = DEFAULT;
    plan[field::HDIV] = 3;
    assert_eq!(smallest.plan, plan);
}

#[test]
fn tasks_go_but_for_the_one_that_is_needed() {
    let shows = |query: &Query| {
        decode(query.bytes).is_ok_and(|head| head.tasks.iter().any(|task| task.id == 9))
    };
    let smallest = shrink(&any_query(Id::Release).query(), shows);
    let head = decode(&smallest.bytes).expect("a head");
    assert_eq!(head.tasks.len(), 1);
    assert_eq!(head.registers, Head::plain().registers);
}

/// A look-up that reads on after a hit.
fn wrong_look_up(query: &Query, lent: Lent) -> u64 {
    let word = (query.call.wanted)(query, lent);
    match decode(query.bytes) {
        Ok(head) if word % 2 == 1 => 2 * head.tasks.len() as u64 + 1,
        _ => word,
    }
}

#[test]
fn a_wrong_look_up_is_shown_by_two_tasks() {
    let mut query = any_query(Id::LookUp);
    query.arguments[0] = 9;
    let differs = |query: &Query| query.by(wrong_look_up) != query.wanted();
    let smallest = shrink(&query.query(), differs);
    let head = decode(&smallest.bytes).expect("a head");
    assert_eq!(head.tasks.len(), 2);
    assert_eq!(smallest.arguments, [head.tasks[0].id.into(), 0, 0]);
    assert_eq!(head.registers, Head::plain().registers);
}

#[test]
fn a_list_of_tasks_gets_shorter() {
    let mut query = any_query(Id::LoadCheck);
    query.bytes = query.bytes[at::TASKS..].to_vec();
    let shows = |query: &Query| query.bytes.len() >= 18 && query.bytes[0] > 0;
    assert_eq!(
        shrink(&query.query(), shows).bytes,
        [&[1][..], &[0; 17]].concat()
    );
}

#[test]
fn a_query_that_nothing_makes_smaller_stays() {
    let query = any_query(Id::Change);
    assert_eq!(shrink(&query.query(), |_| false), query);
}

#[test]
fn a_line_is_read_as_it_was_written() {
    for id in [
        Id::Reconfigure,
        Id::Init,
        Id::Change,
        Id::Div,
        Id::Wake,
        Id::Book,
        Id::LookUp,
        Id::ReadLpsys,
        Id::PlanCheck,
    ] {
        let line = any_query(id).query().to_string();
        let read = Owned::parse(&line).expect("a query");
        assert_eq!(read.query().to_string(), line);
        let answered = Owned::parse(&format!("{line} 0 0 0 0 - 00"));
        assert_eq!(answered, Ok(read));
    }
}

/// Id, cycles and period of a booking; a frequency in MHz; an id; a plan.
#[test]
fn an_argument_has_its_high_byte_first() {
    let argument = |id| {
        let line = any_query(id).query().to_string();
        let words: Vec<&str> = line.split(' ').collect();
        words[words.len() - 4].to_string()
    };
    assert_eq!(argument(Id::Book), "2F0000002E0000002D");
    assert_eq!(argument(Id::Request), "0000002F");
    assert_eq!(argument(Id::Div), "2F2E2D");
    assert_eq!(argument(Id::LookUp), "2F");
    assert_eq!(argument(Id::Wake), "-");
    assert_eq!(
        argument(Id::Change),
        "0012010109010501040101040100000001000101"
    );
}

#[test]
fn a_line_that_is_no_query_is_refused() {
    for line in [
        "",
        "journal=x wake",
        "sleep 00",
        "hdiv",
        "hdiv 0x 00 - -",
        "hdiv 0102 00 - -",
        "hdiv - 00 - -",
        "hdiv 01 0 - -",
        "hdiv 01 0G - -",
        "hdiv 01 00 -",
        "init - 00 - 00000001",
    ] {
        assert!(Owned::parse(line).is_err(), "{line}");
    }
}
