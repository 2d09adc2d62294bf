use super::{at_48_mhz, entries};
use crate::call;
use crate::calls::CALLS;
use crate::delay::Delay;
use crate::head::{BUFFER, Head};
use crate::lent::Lent;
use crate::plan::{DEFAULT, at as field};
use crate::query::{Id, Query, Side, call as call_of};
use crate::readings;
use crate::world::{DELAY, entry};

/// The microseconds of all delays.
const MICROSECONDS: [u32; 5] = [3, 10, 30, 230, 250];

fn cycles(hclk: u32, us: u32) -> u32 {
    let delay = Delay {
        place: 0,
        us,
        hclk,
        original: 0,
    };
    delay.wanted() - entry(DELAY, 0)
}

/// A head with its core at 188,235 Hz: 48 MHz over 255.
fn slow() -> Head {
    let mut head = at_48_mhz();
    head.registers[2] = 0xFF0000;
    assert_eq!(readings::hclk(&head), Some(188_235));
    head
}

#[test]
fn cases_of_the_papers() {
    assert_eq!(cycles(188_235, 3), 1);
    assert_eq!(cycles(240_000_000, 250), 60_000);
}

/// Every HCLK of every source and divider: no delay is short, and none has a cycle to spare.
#[test]
fn never_short() {
    let dlls = (1..=16).flat_map(|stage| [24_000_000 * stage, 12_000_000 * stage]);
    for source in dlls.chain([48_000_000]) {
        for hdiv in 1..=255 {
            for us in MICROSECONDS {
                let hclk = source / hdiv;
                let (asked, cycles) = (u64::from(hclk) * u64::from(us), cycles(hclk, us));
                assert!(u64::from(cycles) * 1_000_000 >= asked, "{us} us at {hclk}");
                assert!(
                    u64::from(cycles - 1) * 1_000_000 < asked,
                    "{us} us at {hclk}"
                );
            }
        }
    }
}

/// What is wanted, but for the delays of so many microseconds.
fn with_delays(query: &Query, lent: Lent, us: u32, other: impl Fn(&Delay) -> u32) -> u64 {
    let Lent {
        journal, delays, ..
    } = lent;
    let rest = Lent {
        journal: &mut *journal,
        delays: &mut *delays,
        ..lent
    };
    let word = (query.call.wanted)(query, rest);
    for delay in delays.iter().filter(|delay| delay.us == us) {
        journal[delay.place] = other(delay);
    }
    word
}

/// A side that rounds the delays of so many microseconds down.
fn rounds_down<const US: u32>(query: &Query, lent: Lent) -> u64 {
    with_delays(query, lent, US, |delay| delay.original)
}

/// A side that adds a cycle to them, also where the division is exact.
fn adds_a_cycle<const US: u32>(query: &Query, lent: Lent) -> u64 {
    with_delays(query, lent, US, |delay| delay.original + 1)
}

/// The calls that have delays.
fn with_delays_on<'a>(head: &'a [u8], plan: &'a [u8]) -> impl Iterator<Item = Query<'a>> {
    let calls = CALLS.iter().filter(|call| !call.delays.is_empty());
    calls.map(move |call| Query {
        arguments: [48, 0, 0],
        plan,
        answers: &[1, 0, 0, 1, 1],
        ..Query::on(call, head)
    })
}

/// A head on which each of them has all its delays: fit, on supply D, LPSYS at 24 MHz.
fn bytes_of(mut head: Head) -> [u8; BUFFER] {
    (head.registers[12], head.registers[15], head.registers[16]) = (1, 10, 8);
    head.registers[26] = 0x020000;
    let mut bytes = [0; BUFFER];
    head.encode(&mut bytes);
    bytes
}

/// The cycles of each delay in a journal, and the original's.
fn cycles_in(entries: &[u32], delays: &[Delay]) -> Vec<(u32, u32)> {
    let value = |entry: u32| entry & 0xFF_FFFF;
    let both = |delay: &Delay| (value(entries[delay.place]), value(delay.original));
    delays.iter().map(both).collect()
}

/// "This goes through calibration, DLL setting, both supply changes and the LPSYS wake."
#[test]
fn at_every_place() {
    let head = bytes_of(slow());
    let wanted = with_delays_on(&head, &DEFAULT).map(|query| {
        let left = query.wanted();
        (query.call.name, cycles_in(left.entries(), &left.delays))
    });
    let expected = [
        ("request", vec![(48, 47)]),
        ("wake", vec![(44, 43), (6, 5)]),
        ("calibrate", vec![(1, 0)]),
        // `init` stores hdiv 1 after the calibration; the last is DLL2's, at 240 MHz.
        (
            "init",
            vec![(1, 0), (12_000, 12_000), (480, 480), (2_400, 2_400)],
        ),
        ("reconfigure", vec![(48, 47), (2, 1)]),
        ("change", vec![(48, 47), (2, 1)]),
    ];
    assert_eq!(wanted.collect::<Vec<_>>(), expected);
}

/// The original writes what it wrote; of what is wanted the entries of delays alone differ.
#[test]
fn all_other_entries_are_the_originals() {
    let outcome = call::wake_lcpu(&slow(), &[1, 1]);
    let expected = [(33, 1), (48, 43), (49, 0x060001), (48, 5), (49, 0x060001)];
    assert_eq!(outcome.entries, entries(&expected));
    let head = bytes_of(slow());
    let query = Query {
        answers: &[1, 1],
        ..Query::on(call_of(Id::Wake), &head)
    };
    let expected = [(33, 1), (48, 44), (49, 0x060001), (48, 6), (49, 0x060001)];
    assert_eq!(query.wanted().entries(), entries(&expected));
}

/// A side for each length of a delay.
macro_rules! for_each_delay {
    ($side:ident) => {
        [
            (3, $side::<3> as Side),
            (10, $side::<10>),
            (30, $side::<30>),
            (230, $side::<230>),
            (250, $side::<250>),
        ]
    };
}

/// Sides that are wrong in delays of so many microseconds are told from what is wanted in just
/// the calls that have such delays.
fn are_told(sides: [(u32, Side); 5], head: Head, plan: &[u8]) {
    for query in with_delays_on(&bytes_of(head), plan) {
        for (us, side) in sides {
            let is_told = query.by(side) != query.wanted();
            assert_eq!(is_told, query.call.delays.contains(&us), "{us} us: {query}");
        }
    }
}

/// With 384 MHz over 7 planned, the delays of `init` are of 48 MHz over 7.
#[test]
fn rounding_down_at_one_place_is_told() {
    let mut plan = DEFAULT;
    (plan[field::HDIV], plan[field::DLL1 + 1], plan[field::USB]) = (7, 15, 0);
    are_told(for_each_delay!(rounds_down), slow(), &plan);
}

#[test]
fn a_cycle_too_many_is_told() {
    are_told(for_each_delay!(adds_a_cycle), at_48_mhz(), &DEFAULT);
}

/// What docs/DIFFERENCES.md has: the least divider of 48 MHz at which a delay is not the original's.
#[test]
fn the_smallest_difference_from_the_original() {
    let calibrated = |hdiv: u32| {
        let mut head = at_48_mhz();
        head.registers[2] = hdiv << 16;
        Query::on(call_of(Id::Calibrate), &bytes_of(head)).wanted()
    };
    for hdiv in 0..5 {
        assert!(!calibrated(hdiv).delays[0].is_longer());
    }
    let left = calibrated(5);
    assert_eq!(left.refusal(), 36);
    assert_eq!(cycles_in(left.entries(), &left.delays), [(29, 28)]);
}
