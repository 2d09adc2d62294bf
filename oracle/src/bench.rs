//! `oracle bench`: every call of librikkovan.a beside the original code, or beside
//! the model of what the original has not, in one table.

use crate::bench_calls;
use crate::heads::{Buffer, buffer, busy, with_tasks};
use crate::plans::{Record, coded, likely};
use rikkovan::bytes;
use sifli::head::{self, BUFFER, Head, MOST_TASKS};
use sifli::plan::{self, DEFAULT, LENGTH, Plan};
use sifli::random::Random;
use sifli::{readings, world};
use std::hint::black_box;
use std::time::Instant;

/// Every round makes so many calls by each side of a row, one side after the other.
const CALLS: usize = 200;
const ROUNDS: usize = 501;

/// The depths of the stack that rounds go through; together they are a page or more.
const FRAMES: usize = 64;

/// A side of a row: makes its call `CALLS` times.
pub type Side = Box<dyn FnMut()>;

/// A call, and what stands beside it.
pub struct Row {
    pub name: &'static str,
    /// The exported call.
    pub ours: Side,
    /// The original or the model on what was decoded before.
    pub in_place: Option<Side>,
    /// The same with the oracle's decoders before it and its encoder after it.
    pub on_bytes: Side,
    /// The bytes that are lent to the exported call.
    pub lent: usize,
}

pub fn side<T>(mut call: impl FnMut() -> T + 'static) -> Side {
    Box::new(move || {
        for _ in 0..CALLS {
            black_box(call());
        }
    })
}

pub fn run() {
    println!("{ROUNDS} rounds of {CALLS} calls by each side in turn. ns: median time of a call.");
    println!("ratio: ours to the other, round by round: median, 10 and 90 percent points.");
    let titles = [
        "on what was decoded",
        "decoding and encoding",
        "copy of what is lent",
    ];
    print_line("", "", titles.map(str::to_string));
    let columns = format!("{:>8}{:>7}{:>7}{:>7}", "ns", "ratio", "10%", "90%");
    print_line("call", "ours ns", [(); 3].map(|()| columns.clone()));
    let rows = plan_checks().into_iter().chain(readings());
    rows.chain(bench_calls::rows()).for_each(measure);
}

fn print_line(name: &str, ours: &str, others: [String; 3]) {
    let others = others.map(|other| format!(" |{other:29}"));
    println!("{name:36}{ours:>8}{}", others.concat().trim_end());
}

/// Runs the sides of a row in turn, round by round, and prints it.
fn measure(mut row: Row) {
    let mut copied = copy(row.lent);
    let mut sides = [
        Some(&mut row.ours),
        row.in_place.as_mut(),
        Some(&mut row.on_bytes),
        Some(&mut copied),
    ];
    let mut times = [const { Vec::new() }; 4];
    for round in 0..ROUNDS {
        deeper(round % FRAMES, &mut || {
            for (side, times) in sides.iter_mut().zip(&mut times) {
                if let Some(side) = side {
                    let began = Instant::now();
                    side();
                    times.push(began.elapsed().as_nanos() as f64 / CALLS as f64);
                }
            }
        });
    }
    let [ours, others @ ..] = &times;
    let median = format!("{:.1}", point(ours, 50));
    print_line(
        row.name,
        &median,
        others.each_ref().map(|t| beside(ours, t)),
    );
}

/// Runs a round so many frames further down the stack. How a call's locals lie to the
/// bytes that it is lent, modulo a page, is chance, and can cost a third of its time.
#[inline(never)]
fn deeper(frames: usize, round: &mut dyn FnMut()) {
    let frame = black_box([0u8; 64]);
    match frames {
        0 => round(),
        _ => deeper(frames - 1, round),
    }
    black_box(&frame);
}

/// The other's median, and the ratio of ours to it with its spread; nothing where
/// there is no other.
fn beside(ours: &[f64], other: &[f64]) -> String {
    if other.is_empty() {
        return String::new();
    }
    let ratios: Vec<f64> = ours.iter().zip(other).map(|(a, b)| a / b).collect();
    let [low, middle, high] = [10, 50, 90].map(|percent| point(&ratios, percent));
    format!("{:8.1}{middle:7.2}{low:7.2}{high:7.2}", point(other, 50))
}

fn point(values: &[f64], percent: usize) -> f64 {
    let mut values = values.to_vec();
    values.sort_by(f64::total_cmp);
    values[(values.len() - 1) * percent / 100]
}

fn copy(bytes: usize) -> Side {
    let (from, mut to) = (vec![1u8; bytes], vec![0u8; bytes]);
    side(move || {
        to.copy_from_slice(black_box(&from));
        black_box(&mut to);
    })
}

/// One plan, then plans in turn: so many that the processor does not learn their order,
/// as it does that of 1000. The original panics on a refused plan.
fn plan_checks() -> [Row; 3] {
    let row = |name, plans: Vec<Record>| {
        let decoded: Vec<Plan> = plans.iter().map(|plan| decoded(plan)).collect();
        let builders: Vec<_> = decoded.iter().map(Plan::builder).collect();
        let is_accepted = decoded.iter().all(|plan| plan.check() == 0);
        let records = plans.clone();
        Row {
            name,
            ours: in_turn(plans, |plan| bytes::plan_check(plan)),
            in_place: is_accepted.then(|| in_turn(builders, |builder| builder.check())),
            on_bytes: match is_accepted {
                true => in_turn(records, |plan| self::decoded(plan).builder().check()),
                false => in_turn(records, |plan| plan::check(plan)),
            },
            lent: LENGTH,
        }
    };
    [
        row("plan check, the default plan", vec![DEFAULT]),
        row("plan check, 10000 accepted plans", plans(true)),
        row("plan check, 10000 refused plans", plans(false)),
    ]
}

/// Goes through some inputs again and again.
fn in_turn<P: 'static, T>(inputs: Vec<P>, call: impl Fn(&P) -> T + 'static) -> Side {
    let mut next = 0;
    side(move || {
        let input = &inputs[next];
        next = (next + 1) % inputs.len();
        call(black_box(input))
    })
}

/// Plans whose bytes are codes, and that are accepted or not.
fn plans(accepted: bool) -> Vec<Record> {
    let mut random = Random::new(0xBE7C);
    let mut draw = move || match random.once_in(2) {
        true => likely(&mut random),
        false => coded(&mut random),
    };
    let is_wanted = |plan: &Record| (plan::check(plan) == 0) == accepted;
    std::iter::from_fn(move || Some(draw()))
        .filter(is_wanted)
        .take(10_000)
        .collect()
}

/// # Panics
///
/// Panics on a byte that is no code.
pub fn decoded(plan: &[u8]) -> Plan {
    plan::decode(plan).expect("a plan of codes")
}

/// # Panics
///
/// Panics on a byte that is out of range.
pub fn decoded_head(buffer: &[u8]) -> Head {
    head::decode(buffer).expect("a head of codes")
}

fn readings() -> [Row; 4] {
    let clocks = |name, tasks| {
        let ours = |head: &Buffer| {
            let mut clocks = [0; 15];
            let _ = black_box(bytes::read_clocks(head, &mut clocks));
            clocks
        };
        reading(name, tasks, ours, readings::clocks_in_place)
    };
    let lpsys = |name, tasks| {
        let ours = |head: &Buffer| {
            let mut lpsys = [0; 6];
            let _ = black_box(bytes::read_lpsys(head, &mut lpsys));
            lpsys
        };
        reading(name, tasks, ours, readings::lpsys_in_place)
    };
    [
        clocks("read_clocks, no tasks", 0),
        clocks("read_clocks, 16 tasks", MOST_TASKS),
        lpsys("read_lpsys, no tasks", 0),
        lpsys("read_lpsys, 16 tasks", MOST_TASKS),
    ]
}

/// A reading of a head with so many tasks, which stays as it is.
fn reading<F: 'static, T: 'static>(
    name: &'static str,
    tasks: usize,
    ours: fn(&Buffer) -> F,
    original: fn() -> T,
) -> Row {
    let bytes = buffer(&with_tasks(busy(), tasks), 0);
    let head = decoded_head(&bytes);
    let mut reads = side(original);
    Row {
        name,
        ours: side(move || ours(black_box(&bytes))),
        in_place: Some(Box::new(move || {
            world::restart(&head, &[]);
            reads();
        })),
        on_bytes: side(move || {
            world::restart(&decoded_head(black_box(&bytes)), &[]);
            original()
        }),
        lent: BUFFER + size_of::<F>(),
    }
}
