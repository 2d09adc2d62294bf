//! Journals played to a board that stands in for a chip: ready at once, late or never, and with
//! the player stopped for good after each entry.

use crate::{changed, head, plan};
use rikkovan::{
    play, Asked, Chip, Clocks, Entry, Head, Journal, Megahertz, Outcome, Plan, ReadyFlag, Refusal,
    Register, WaitKind, MOST_ANSWERS,
};

/// The room for answers. Of one that times out two words are left, for the counts of a measurement.
const ROOM: usize = 80;

/// A chip that logs what it is told, and each wait that ended, as entries of a journal.
struct Board {
    /// Its registers, in a head.
    head: Head,
    /// The polls of a wait that are not ready, before one that is.
    late: u16,
    /// The waits that end; in all further ones it is never ready.
    waits: u32,
    /// The entries that reach it yet, after which the player is stopped.
    left: usize,
    /// The polls of the present wait.
    polls: u16,
    /// The trim at which HRC48 is right; each step off it is eight counts.
    trim: i32,
    log: Vec<Entry>,
}

impl Board {
    /// With the registers of a head, always ready in the end, and never stopped.
    fn new(head: &Head, late: u16) -> Self {
        Self {
            head: head.clone(),
            late,
            waits: u32::MAX,
            left: usize::MAX,
            polls: 0,
            trim: 333,
            log: Vec::new(),
        }
    }

    fn told(&mut self, entry: Entry) {
        if self.left == 0 {
            return;
        }
        self.left -= 1;
        put(&mut self.head, entry);
        self.log.push(entry);
    }

    fn end_wait(&mut self, kind: WaitKind, counts: u16) {
        let answers = self.polls + counts;
        self.told(Entry::Wait { kind, answers });
        self.polls = 0;
        self.waits -= 1;
    }

    fn is_ready(&mut self, kind: WaitKind) -> bool {
        self.polls += 1;
        let is_ready = self.left > 0 && self.waits > 0 && self.polls > self.late;
        if is_ready && kind != WaitKind::Calibration {
            self.end_wait(kind, 0);
        }
        is_ready
    }

    fn hrc_count(&mut self) -> u16 {
        self.end_wait(WaitKind::Calibration, 2);
        let trim = self.head.register(Register::HrcTrim) as i32;
        (20_000 + 8 * (trim - self.trim)) as u16
    }
}

impl Chip for Board {
    fn store(&mut self, register: Register, value: u32) {
        self.told(Entry::Store { register, value });
    }

    fn delay(&mut self, cycles: u32) {
        self.told(Entry::Delay { cycles });
    }

    fn poll(&mut self, asked: Asked) -> u16 {
        match asked {
            Asked::Ready(kind) => u16::from(self.is_ready(kind)) << 8,
            Asked::HxtCount => 20_000,
            Asked::HrcCount => self.hrc_count(),
        }
    }
}

/// Puts an entry into the registers of a head.
fn put(head: &mut Head, entry: Entry) {
    if let Entry::Store { register, value } = entry {
        head.set_register(register, value).expect("a register");
    }
}

/// A head with entries put in.
fn moment(head: &Head, entries: &[Entry]) -> Head {
    let mut head = head.clone();
    entries.iter().for_each(|&entry| put(&mut head, entry));
    head
}

/// A head with the registers of one and all else of another.
fn with_registers(of: &Head, rest: &Head) -> Head {
    let mut head = rest.clone();
    for &register in Register::ALL {
        let value = of.register(register);
        head.set_register(register, value).expect("a register");
    }
    head
}

/// A call on a head, with the number of waits for which it polls.
struct Case {
    head: Head,
    call: Box<Call>,
    is_change: bool,
    waits: u32,
}

/// A call whose value is left out.
type Call = dyn Fn(&mut Head, &mut Journal, &[u16]) -> Outcome;

fn change(head: Head, plan: Plan, waits: u32) -> Case {
    Case {
        head,
        call: Box::new(move |head, journal, answers| head.change(&plan, journal, answers)),
        is_change: true,
        waits,
    }
}

fn other(
    head: Head,
    waits: u32,
    call: impl Fn(&mut Head, &mut Journal, &[u16]) -> Outcome + 'static,
) -> Case {
    Case {
        head,
        call: Box::new(call),
        is_change: false,
        waits,
    }
}

fn init(head: Head, plan: Plan, waits: u32) -> Case {
    other(head, waits, move |head, journal, answers| {
        let outcome = head.init(&plan, journal, answers);
        outcome.map(|done| done.map(|_| ()))
    })
}

fn reconfigure(head: Head, plan: Plan, waits: u32) -> Case {
    other(head, waits, move |head, journal, answers| {
        let outcome = head.reconfigure_sysclk(&plan, Clocks::default(), journal, answers);
        outcome.map(|done| done.map(|_| ()))
    })
}

fn not_ready(name: &str) -> Head {
    let mut head = head(name);
    head.set_ready(ReadyFlag::Hxt48, false);
    head.set_ready(ReadyFlag::LpsysHxt48, false);
    head
}

fn standby() -> Head {
    let mut head = not_ready("d48");
    head.set_boot_mode(3);
    head
}

fn cases() -> Vec<Case> {
    let uncalibrated = changed(|plan| plan.calibrate = false);
    vec![
        change(head("d48"), Plan::DEFAULT, 1),
        change(head("d48"), plan("dll1-144"), 1),
        change(head("s240"), plan("dll1-144"), 1),
        change(head("s240-flash"), plan("dll1-120"), 1),
        change(head("s240"), plan("low-power-24"), 0),
        // HXT48, six measurements, DLL1 and, where it is not on already, DLL2.
        init(not_ready("d48"), Plan::DEFAULT, 8),
        init(not_ready("d48"), plan("dll1-144"), 9),
        init(head("d48"), uncalibrated, 1),
        init(standby(), Plan::DEFAULT, 1),
        reconfigure(head("d48"), Plan::DEFAULT, 1),
        reconfigure(head("s240"), plan("low-power-24"), 0),
        other(head("d48"), 6, Head::calibrate_hrc48),
        other(head("d48"), 2, Head::wake_lcpu),
        other(not_ready("d48"), 2, Head::ensure_hxt48_ready),
        other(head("d48"), 0, |head, journal, _| {
            head.config_lpsys_hclk_mhz(Megahertz(20), journal)
        }),
    ]
}

/// Plays a case to a board; gives the head that is left, the journal and the answers taken.
fn play_case(case: &Case, board: &mut Board) -> (Outcome, Head, Journal, Vec<u16>) {
    let (mut head, mut journal) = (with_registers(&board.head, &case.head), Journal::new());
    let mut answers = [0; ROOM];
    let outcome = play(board, &mut head, &mut journal, &mut answers, &case.call);
    let taken = match outcome {
        Ok(done) => done.taken,
        Err(refused) => refused.taken,
    };
    (outcome, head, journal, answers[..taken].to_vec())
}

/// What is played is what the library leaves that is lent the same answers at once.
fn test_played(case: &Case, board: &mut Board) -> Outcome {
    let (outcome, played, journal, answers) = play_case(case, board);
    let (mut made, mut whole) = (case.head.clone(), Journal::new());
    assert_eq!(outcome, (case.call)(&mut made, &mut whole, &answers));
    assert_eq!(made, played);
    assert_eq!(whole, journal);
    assert_eq!(with_registers(&board.head, &made), made);
    // Of a wait that takes no answer the board knows nothing.
    let is_told = |entry: &Entry| !matches!(entry, Entry::Wait { answers: 0, .. });
    assert!(journal.iter().filter(is_told).eq(board.log.iter().copied()));
    outcome
}

#[test]
fn ready_at_once_or_late_or_never() {
    for case in cases() {
        for late in 0..=4 {
            for waits in 0..=case.waits {
                let mut board = Board::new(&case.head, late);
                board.waits = waits;
                let outcome = test_played(&case, &mut board);
                match outcome.map_err(|refused| (refused.refusal, refused.taken)) {
                    Ok(_) => assert_eq!(waits, case.waits),
                    Err(why) => assert_eq!(why, (Refusal::AnswersRanOut, ROOM - 2)),
                }
                assert_eq!(board.waits, 0);
            }
        }
    }
}

#[test]
fn stopped_after_each_entry_the_chip_has_a_moment_of_the_call() {
    for case in cases() {
        let mut whole = Board::new(&case.head, 1);
        assert!(test_played(&case, &mut whole).is_ok());
        for left in 0..=whole.log.len() {
            let mut board = Board::new(&case.head, 1);
            board.left = left;
            let _ = play_case(&case, &mut board);
            assert_eq!(board.log, whole.log[..left]);
            assert_eq!(board.head, moment(&case.head, &whole.log[..left]));
            if case.is_change {
                test_changed_again(&case, &board.head);
            }
        }
    }
}

/// A head read from a board on which a change was cut off is within its limits by the library's own
/// readings, and changes.
fn test_changed_again(case: &Case, cut: &Head) {
    let fit = cut.fit();
    assert!(cut.clocks().hclk.expect("HCLK reads") <= fit.rail_limit);
    assert_eq!(fit.unfit, None);
    let (outcome, ..) = play_case(case, &mut Board::new(cut, 0));
    assert!(outcome.is_ok());
}

#[test]
fn counts_steer_the_stores() {
    let case = other(head("d48"), 6, Head::calibrate_hrc48);
    let mut board = Board::new(&case.head, 0);
    assert!(test_played(&case, &mut board).is_ok());
    assert_eq!(board.head.register(Register::HrcTrim), 336);
}

#[test]
fn refused_before_the_first_store_on_the_way_and_at_the_end() {
    let mut no_hclk = head("d48");
    no_hclk
        .set_register(Register::Sysclk, 2)
        .expect("a register");
    for (case, refusal, entries) in [
        (
            change(head("d48-low-volts"), Plan::DEFAULT, 0),
            Refusal::Unfit,
            0,
        ),
        (
            other(no_hclk, 0, Head::wake_lcpu),
            Refusal::HclkUnreadable,
            1,
        ),
        (
            other(head("d48"), 11, Head::calibrate_hrc48),
            Refusal::Difference,
            57,
        ),
    ] {
        let mut board = Board::new(&case.head, 1);
        // No trim makes it right.
        board.trim = 2_000;
        let outcome = test_played(&case, &mut board);
        assert_eq!(outcome.unwrap_err().refusal, refusal);
        assert_eq!(board.log.len(), entries);
        assert_eq!(u32::MAX - board.waits, case.waits);
    }
}

#[test]
fn the_room_is_the_limit_of_polls() {
    for (room, polls) in [
        (0, 0),
        (2, 0),
        (3, 1),
        (4, 2),
        (MOST_ANSWERS, MOST_ANSWERS - 2),
        (2 * MOST_ANSWERS, MOST_ANSWERS - 2),
    ] {
        let mut head = head("d48");
        let mut board = Board::new(&head, u16::MAX);
        let mut answers = vec![0; room];
        let outcome = play(
            &mut board,
            &mut head,
            &mut Journal::new(),
            &mut answers,
            |head, journal, answers| head.change(&Plan::DEFAULT, journal, answers),
        );
        assert_eq!(outcome.unwrap_err().taken, polls);
        assert_eq!(usize::from(board.polls), polls);
    }
}
