//! Playing the journal of a call to a chip.

use crate::call::Outcome;
use crate::head::Head;
use crate::journal::{Entry, Journal, WaitKind, MOST_ANSWERS};
use crate::refusal::Refusal;
use crate::register::Register;

/// The answers of a wait that is over at once; a measurement takes all three.
const SOONEST: [u16; 3] = [1, 0, 0];

/// What a poll asks for.
#[derive(Debug, Clone, Copy, PartialEq, Eq, Hash)]
pub enum Asked {
    /// Whether a wait is over: 0 for not ready, any other number for ready.
    Ready(WaitKind),
    /// hxt_cnt, the first count of a measurement that is ready.
    HxtCount,
    /// hrc_cnt, the second.
    HrcCount,
}

/// What a chip does for the player.
pub trait Chip {
    /// Stores a value in a register: a * 65,536 + b * 256 + c.
    fn store(&mut self, register: Register, value: u32);
    /// Lets so many core cycles pass, or more.
    fn delay(&mut self, cycles: u32);
    /// Polls once.
    fn poll(&mut self, asked: Asked) -> u16;
}

/// Makes a call on a head and on the chip whose registers the head holds; afterwards it holds them
/// again.
///
/// The call is made with the answers that the chip gave so far, none at first, and the entries that
/// are new are played. In a wait the chip is polled, and the call is made again, from the head as
/// it was: its journal begins with the entries that are played already. So `call` must make one
/// call, the same each time. What comes out is what it leaves that is lent all answers at once.
///
/// The player may be stopped for good between any two entries: the chip then has the registers of
/// the head as it was, with the first entries put in.
///
/// `answers` is room for what the chip answers. At most [`MOST_ANSWERS`] are used, and it is the
/// limit of polls: the chip is polled as long as there is room for three answers, which a
/// measurement takes. `AnswersRanOut` means that the chip was not ready within it.
///
/// ```
/// use rikkovan::{play, Asked, Chip, Head, Hertz, Journal, Plan, Register};
///
/// /// Counts what it is told.
/// #[derive(Default)]
/// struct Board { stores: u32, polls: u16 }
///
/// impl Chip for Board {
///     fn store(&mut self, _: Register, _: u32) {
///         self.stores += 1;
///     }
///
///     fn delay(&mut self, _: u32) {}
///
///     fn poll(&mut self, _: Asked) -> u16 {
///         self.polls += 1;
///         u16::from(self.polls == 20)
///     }
/// }
///
/// let mut board = Board::default();
/// let mut head = Head::from_bytes(&std::fs::read("../../examples/heads/d48.head")?)?;
/// let (mut journal, mut answers) = (Journal::new(), [0; 100]);
/// let done = play(&mut board, &mut head, &mut journal, &mut answers, |head, journal, answers| {
///     head.change(&Plan::DEFAULT, journal, answers)
/// })?;
/// assert_eq!(done.taken, 20);
/// assert_eq!(board.stores, 14);
/// assert_eq!(head.clocks().hclk, Some(Hertz::mhz(240)));
/// # Ok::<(), Box<dyn std::error::Error>>(())
/// ```
///
/// # Panics
///
/// Where `call` is not the same each time, and with more answers does not get to the wait in which
/// it ran out of them.
pub fn play<T>(
    chip: &mut dyn Chip,
    head: &mut Head,
    journal: &mut Journal,
    answers: &mut [u16],
    call: impl Fn(&mut Head, &mut Journal, &[u16]) -> Outcome<T>,
) -> Outcome<T> {
    let most = answers.len().min(MOST_ANSWERS);
    let answers = &mut answers[..most];
    let (mut got, mut played) = (0, 0);
    loop {
        let mut made = head.clone();
        let outcome = call(&mut made, journal, &answers[..got]);
        play_entries(chip, journal.iter().skip(played));
        played = journal.len();
        if !ran_out(&outcome) || !may_poll(answers, got) {
            *head = made;
            return outcome;
        }
        answers[got..][..SOONEST.len()].copy_from_slice(&SOONEST);
        // The wait has its entry where it ended.
        let _ = call(&mut head.clone(), journal, &answers[..got + SOONEST.len()]);
        let Some(Entry::Wait { kind, .. }) = journal.get(played) else {
            panic!("a call that ran out of answers goes on with a wait");
        };
        got = poll(chip, kind, answers, got);
    }
}

fn play_entries(chip: &mut dyn Chip, entries: impl Iterator<Item = Entry>) {
    for entry in entries {
        match entry {
            Entry::Store { register, value } => chip.store(register, value),
            Entry::Delay { cycles } => chip.delay(cycles),
            Entry::Wait { .. } => {}
        }
    }
}

fn ran_out<T>(outcome: &Outcome<T>) -> bool {
    matches!(outcome, Err(refused) if refused.refusal == Refusal::AnswersRanOut)
}

fn may_poll(answers: &[u16], got: usize) -> bool {
    got + SOONEST.len() <= answers.len()
}

/// Polls until the chip is ready or the limit is reached. Gives the number of answers got with
/// these.
fn poll(chip: &mut dyn Chip, kind: WaitKind, answers: &mut [u16], mut got: usize) -> usize {
    let mut is_ready = false;
    while !is_ready && may_poll(answers, got) {
        answers[got] = chip.poll(Asked::Ready(kind));
        is_ready = answers[got] != 0;
        got += 1;
    }
    if !is_ready || kind != WaitKind::Calibration {
        return got;
    }
    answers[got] = chip.poll(Asked::HxtCount);
    answers[got + 1] = chip.poll(Asked::HrcCount);
    got + 2
}
