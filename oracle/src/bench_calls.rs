//! `oracle bench`: the calls on a head, and the load check.

use crate::bench::{Row, Side, decoded, decoded_head, side};
use crate::change_inputs::{self, Core, with_core};
use crate::config_inputs::{SEARCH, search};
use crate::config_plans::HXT48;
use crate::heads::{Buffer, buffer, busy, plain, put_flags, put_register};
use crate::ours;
use crate::task_inputs::{Order, light_list, with_light_tasks};
use rikkovan::bytes;
use sifli::calls::lpsys;
use sifli::change::{change, fit};
use sifli::head::{BUFFER, Head, LONGEST_PERIOD, MOST_TASKS, TASK, Task};
use sifli::lent::Lent;
use sifli::moment::moment;
use sifli::pac::lpsys_rcc::vals::Sysclk;
use sifli::pac::lpsys_rcc::vals::mux::Perisel;
use sifli::plan::{DEFAULT, Plan};
use sifli::query::{Call, Clocks, Id, JOURNAL, Query, call};
use sifli::{call, rcc, tasks, world};
use std::hint::black_box;

/// The core at 48 MHz from HXT48, and at 240 MHz from DLL1.
const SLOW: Core = (1, 1, [0; 3]);
const FAST: Core = (3, 1, [1, 0, 9]);

/// The original on a head in place, with the arguments and the plan of a query.
type Original = fn(&Query, &Plan);

/// The model of a call, which gives the head after it.
type Model = fn(&Query, &Head) -> Result<Head, u64>;

pub fn rows() -> impl Iterator<Item = Row> {
    let rows = lpsys().iter().map(lpsys_row).chain(config_rows());
    rows.chain(load_checks())
        .chain(task_rows())
        .chain(look_ups())
        .chain(fit_readings())
        .chain(changes())
        .chain([moment_row()])
}

/// The exported call; its bytes are copied before it, as on the other sides.
fn exported(query: Query<'static>) -> Side {
    let call = ours::side(query.call);
    let (mut bytes, mut clocks) = (query.bytes.to_vec(), query.clocks);
    let mut journal = [0; JOURNAL];
    side(move || {
        bytes.copy_from_slice(black_box(query.bytes));
        let lent = Lent {
            bytes: &mut bytes,
            clocks: &mut clocks,
            journal: &mut journal,
            delays: &mut Vec::new(),
        };
        let word = call(black_box(&query), lent);
        assert_eq!(word >> 63, 0, "a call that is measured is done");
    })
}

fn bytes_lent(query: &Query) -> usize {
    let call = query.call;
    let clocks = matches!(call.clocks, Clocks::Written | Clocks::Former);
    let journal = if call.is_lent_journal { JOURNAL } else { 0 };
    let words = journal + if clocks { query.clocks.len() } else { 0 };
    query.bytes.len() + query.plan.len() + 2 * query.answers.len() + 4 * words
}

/// A query for as long as the program runs.
fn kept(query: Query) -> Query<'static> {
    Box::leak(Box::new(query.to_owned())).query()
}

/// A call of the original code.
fn of_original(name: &'static str, query: Query, original: Original) -> Row {
    let query = kept(query);
    let (head, given) = (decoded_head(query.bytes), planned(&query));
    let mut bytes: Buffer = query.bytes.try_into().expect("a head's buffer");
    Row {
        name,
        ours: exported(query),
        in_place: Some(side(move || {
            world::restart(black_box(&head), query.answers);
            original(&query, black_box(&given));
        })),
        on_bytes: side(move || {
            bytes.copy_from_slice(black_box(query.bytes));
            world::restart(&decoded_head(&bytes), query.answers);
            let plan = planned(black_box(&query));
            if query.call.is_lent_plan {
                assert_eq!(plan.check(), 0, "a plan that is measured is accepted");
            }
            original(&query, &plan);
            world::look(|after| after.encode(&mut bytes));
            black_box(&mut bytes);
        }),
        lent: bytes_lent(&query),
    }
}

/// The query's plan; any where the call takes none.
fn planned(query: &Query) -> Plan {
    match query.call.is_lent_plan {
        true => decoded(query.plan),
        false => Plan::default(),
    }
}

/// A call that only the model has.
fn of_model(
    name: &'static str,
    query: Query,
    model: impl Fn(&Query, &Head) -> Result<Head, u64> + Copy + 'static,
) -> Row {
    let query = kept(query);
    let head = decoded_head(query.bytes);
    let mut bytes: Buffer = query.bytes.try_into().expect("a head's buffer");
    Row {
        name,
        ours: exported(query),
        in_place: Some(side(move || model(&query, black_box(&head)))),
        on_bytes: side(move || {
            bytes.copy_from_slice(black_box(query.bytes));
            let after = model(&query, &decoded_head(&bytes)).expect("a call that is done");
            after.encode(&mut bytes);
            black_box(&mut bytes);
        }),
        lent: bytes_lent(&query),
    }
}

/// A reading that only the model has, of a head that stays as it is; ours gives what is
/// written.
fn of_reading<F, T>(
    name: &'static str,
    bytes: Buffer,
    ours: impl Fn(&Buffer) -> F + 'static,
    model: impl Fn(&Head) -> T + Copy + 'static,
) -> Row {
    let head = decoded_head(&bytes);
    Row {
        name,
        ours: side(move || ours(black_box(&bytes))),
        in_place: Some(side(move || model(black_box(&head)))),
        on_bytes: side(move || model(&decoded_head(black_box(&bytes)))),
        lent: BUFFER + size_of::<F>(),
    }
}

/// A call of LPSYS at 48 MHz on S, with arguments that are not refused and both
/// HXT48 to wait for.
fn lpsys_row(call: &'static Call) -> Row {
    let mut head = plain();
    head.registers[1] = 0;
    head.registers[28] = 1;
    (head.hxt48_ready, head.lpsys_hxt48_ready) = (false, false);
    head.wake_count = 2;
    let bytes = buffer(&head, 0);
    let mut query = Query::on(call, &bytes);
    for (value, argument) in query.arguments.iter_mut().zip(call.arguments) {
        *value = argument.ends[1];
    }
    if call.is_lent_answers {
        query.answers = &[1, 1];
    }
    of_original(call.function, query, lpsys_in_place(call.id))
}

fn lpsys_in_place(id: Id) -> Original {
    match id {
        Id::Request => |query, _| {
            let _ = unsafe { rcc::config_lpsys_hclk_mhz(query.arguments[0]) };
        },
        Id::Safe => |_, _| {
            let _ = rcc::ensure_safe_lcpu_frequency();
        },
        Id::Wake => |_, _| unsafe { rcc::wake_lcpu() },
        Id::Cancel => |_, _| unsafe { rcc::cancel_lcpu_active_request() },
        Id::Hxt48 => |_, _| rcc::ensure_hxt48_ready(),
        Id::Hdiv => |query, _| rcc::set_lpsys_hdiv(query.small()[0]),
        Id::Div => |query, _| {
            let [hdiv, pdiv1, pdiv2] = query.small();
            rcc::set_lpsys_div(hdiv, pdiv1, pdiv2);
        },
        Id::Mac => |query, _| {
            let [macdiv, macfreq, _] = query.small();
            rcc::config_lpsys_mac_clock(macdiv, macfreq);
        },
        Id::Sysclk => |query, _| rcc::select_lpsys_sysclk(Sysclk::from_bits(query.small()[0])),
        _ => |query, _| rcc::select_lpsys_peri(Perisel::from_bits(query.small()[0])),
    }
}

fn with_plan<'a>(id: Id, head: &'a Buffer, plan: &'a [u8], answers: &'a [u16]) -> Query<'a> {
    Query {
        plan,
        answers,
        ..Query::on(call(id), head)
    }
}

/// A cold head has the core on HXT48, which is not ready, and nothing else set.
fn config_rows() -> [Row; 6] {
    let ready = buffer(&plain(), 0);
    let mut cold = ready;
    put_flags(&mut cold, 2);
    let fast = buffer(&busy(), 0);
    let mut slow = fast;
    put_register(&mut slow, 1, [0, 0, 1]);
    put_register(&mut slow, 12, [0, 0, 1]);
    let calibrating = |name, answers: Vec<u16>| {
        let query = with_plan(Id::Calibrate, &ready, &[], &answers);
        of_original(name, query, |_, _| {
            call::calibrate_in_place().expect("a search that ends")
        })
    };
    let initial = |name, measured: Vec<u16>| {
        let answers = [&[1], &measured[..], &[1, 1]].concat();
        let query = with_plan(Id::Init, &cold, &DEFAULT, &answers);
        of_original(name, query, |_, plan| call::init_in_place(plan))
    };
    let changing = |name, head, plan| {
        let query = with_plan(Id::Reconfigure, head, plan, &[1]);
        of_original(name, query, |_, plan| call::reconfigure_in_place(plan))
    };
    [
        calibrating("calibrate_hrc48, 1 measurement", search(1, 0, 0)),
        calibrating("calibrate_hrc48, 11", search(SEARCH, 64, !0)),
        initial("init of a cold head, 1 measurement", search(1, 0, 0)),
        initial("init of a cold head, 11", search(SEARCH, 64, !0)),
        changing("reconfigure_sysclk, 240 to 48 MHz", &fast, &HXT48[..]),
        changing("reconfigure_sysclk, 48 to 240 MHz", &slow, &DEFAULT[..]),
    ]
}

fn load_checks() -> [Row; 2] {
    let row = |name, count| {
        let bytes = light_list(count);
        let decoded: Vec<Task> = bytes.chunks_exact(TASK).map(Task::decode).collect();
        let query = kept(Query::on(call(Id::LoadCheck), &bytes));
        Row {
            name,
            ours: exported(query),
            in_place: Some(side(move || tasks::load(black_box(&decoded)))),
            on_bytes: side(move || tasks::load_check(black_box(query.bytes))),
            lent: bytes_lent(&query),
        }
    };
    [
        row("load_check, 2 tasks", 2),
        row("load_check, 16 tasks", MOST_TASKS),
    ]
}

/// On heads with few tasks and with many; the first of them is released.
fn task_rows() -> [Row; 4] {
    let row = |name, count, order: Order, model| {
        let bytes = buffer(&with_light_tasks(busy(), count), 0);
        of_model(name, order.on(&bytes), model)
    };
    let new = Order::Book(Task {
        id: 200,
        cycles: 120_000,
        period_us: LONGEST_PERIOD,
    });
    let book: Model = |query, head| tasks::book(head, query.task());
    let first = Order::Release(1);
    let release: Model = |query, head| tasks::release(head, query.task().id);
    [
        row("book, beside 2 tasks", 2, new, book),
        row("book, beside 15 tasks", MOST_TASKS - 1, new, book),
        row("release, of 2 tasks", 2, first, release),
        row("release, of 16 tasks", MOST_TASKS, first, release),
    ]
}

/// The last id, which is found after all tasks, and one that is not there.
fn look_ups() -> [Row; 3] {
    let row = |name, count, id: u8| {
        let bytes = buffer(&with_light_tasks(busy(), count), 0);
        let ours = move |head: &Buffer| {
            let _ = black_box(bytes::look_up(head, black_box(id)));
        };
        let model = move |head: &Head| tasks::look_up(head, black_box(id));
        of_reading(name, bytes, ours, model)
    };
    [
        row("look_up, the last of 2 tasks", 2, 2),
        row("look_up, the last of 16 tasks", MOST_TASKS, 16),
        row("look_up, none of 16 tasks", MOST_TASKS, 200),
    ]
}

/// Of heads that are fit, at 240 MHz.
fn fit_readings() -> [Row; 2] {
    let row = |name, count| {
        let bytes = buffer(&with_light_tasks(with_core(FAST), count), 0);
        let ours = |head: &Buffer| {
            let mut numbers = [0; 3];
            let _ = black_box(bytes::read_fit(head, &mut numbers));
            numbers
        };
        of_reading(name, bytes, ours, fit)
    };
    [
        row("read_fit, no tasks", 0),
        row("read_fit, 16 tasks", MOST_TASKS),
    ]
}

/// Between 48 MHz on D and 240 MHz on S, and to the clock that is there, on heads
/// with two tasks.
fn changes() -> [Row; 3] {
    let row = |name, from, to| {
        let bytes = buffer(&with_light_tasks(with_core(from), 2), 0);
        let query = Query {
            plan: &change_inputs::plan(to),
            answers: &[1],
            ..Query::on(call(Id::Change), &bytes)
        };
        of_model(name, query, |query, head| {
            change(head, query.plan, query.answers).map(|outcome| outcome.head)
        })
    };
    [
        row("change, 48 MHz on D to 240 on S", SLOW, FAST),
        row("change, 240 MHz on S to 48 on D", FAST, SLOW),
        row("change, 240 MHz to the same", FAST, FAST),
    ]
}

/// All entries of a guarded change, put into the head that it had. The query holds
/// entries as bytes, so the exported call is made without it.
fn moment_row() -> Row {
    let head = with_light_tasks(with_core(SLOW), 2);
    let changed = change(&head, &change_inputs::plan(FAST), &[1]);
    let entries: &[u32] = changed.expect("a change that is done").entries.leak();
    let bytes = buffer(&head, 0);
    let query = Query::on(call(Id::Moment), &bytes);
    let row = of_model("moment, all entries of a change", query, |_, head| {
        moment(head, black_box(entries))
    });
    let mut lent = bytes;
    Row {
        ours: side(move || {
            lent.copy_from_slice(black_box(&bytes));
            bytes::moment(&mut lent, black_box(entries))
        }),
        lent: row.lent + size_of_val(entries),
        ..row
    }
}
