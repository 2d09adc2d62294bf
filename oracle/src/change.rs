//! The guarded change, from document 01, its delays rounded up as document 02 has
//! them. It is not in the original code, which gives the verdict on the plan, the
//! plan's clock, the readings, the modes and the supply rows.

use crate::call::Outcome;
use crate::delay::{self, Delay};
use crate::head::{Head, Registers};
use crate::plan::{self, at};
use crate::pmu::dvfs::{HPSYS_DVFS_CONFIG, HpsysDvfsMode};
use crate::readings;
use crate::tasks;
use crate::time::Hertz;
use crate::world::{DELAY, Kind, WAIT, entry};

/// 0 and the refusals that it has.
pub const ANSWERS: [usize; 21] = [
    0, 1, 2, 3, 4, 5, 6, 7, 8, 9, 10, 11, 12, 13, 14, 17, 18, 36, 37, 38, 39,
];

/// The most entries.
pub const MOST_ENTRIES: usize = 20;

/// The modes, by the numbers of their rows.
pub type Mode = usize;

const D0: Mode = 0;
const D1: Mode = 1;
const S0: Mode = 2;
const S1: Mode = 3;

/// The most that each mode carries, in Hz.
const LIMITS: [u32; 4] = [24_000_000, 48_000_000, 144_000_000, 240_000_000];

/// What a D row's offset is added to.
const REFERENCE: i8 = 11;

const LPSYS_D_LIMIT: u32 = 24_000_000;

/// The guarded change on a head and a plan's slice. `Err` is a refusal before the
/// first store; 17, 18 and the head's 1 to 3 are tested by `call::admit`.
pub fn change(head: &Head, plan: &[u8], answers: &[u16]) -> Result<Outcome, u64> {
    let verdict = plan::check(plan);
    if verdict != 0 {
        return Err(verdict);
    }
    let target = plan::decode(plan)?.builder().get_hclk_freq_hz();
    let present = readings::hclk(head).filter(|_| is_fit(head)).ok_or(37u64)?;
    if !head.hxt48_ready || plan[at::CORE] == 0 && !head.hrc48_ready {
        return Err(38);
    }
    if tasks::load(&head.tasks) > target.into() {
        return Err(39);
    }
    let mut running = Running {
        head: head.clone(),
        entries: Vec::new(),
        answers,
        taken: 0,
    };
    let ended = running.steps(plan, present, target);
    Ok(Outcome {
        answer: ended.err().unwrap_or(0),
        value: 0,
        clocks: [0; 15],
        entries: running.entries,
        head: running.head,
        taken: running.taken,
    })
}

/// "Rail limit: on D, the higher of 24 and 48 MHz whose row has buck <= register
/// 15 and reference + offset <= register 16; on S, the higher of 144 and 240 MHz
/// with registers 13, 14 and the row's ldo; else 0." In Hz.
pub fn rail_limit(registers: &Registers) -> u32 {
    let modes = if registers[12] == 1 {
        [D1, D0]
    } else {
        [S1, S0]
    };
    let carries = |mode: &Mode| supply(*mode).iter().all(|&(n, v)| v <= registers[n]);
    modes.into_iter().find(carries).map_or(0, |m| LIMITS[m])
}

/// "A head is fit when HCLK reads, is at most the rail limit, no flash select
/// names a DLL that is off, the LPSYS source is ready, and LPSYS HCLK above 24 MHz
/// has supply S."
pub fn is_fit(head: &Head) -> bool {
    let registers = &head.registers;
    let is_off = |dll: usize| registers[dll] >> 16 == 0;
    let names = |code: u32| flash_selects(registers).contains(&code);
    let [source, lpsys_hclk, ..] = readings::read_lpsys(head);
    readings::hclk(head).is_some_and(|hclk| hclk <= rail_limit(registers))
        && !(names(1) && is_off(3) || names(2) && is_off(4))
        && source != 0
        && (lpsys_hclk <= LPSYS_D_LIMIT || registers[28] == 1)
}

/// The rail limit, the load, and the first clause of a fit head that does not hold, 0
/// for a fit head: 1 HCLK reads, 2 is at most the rail limit, 3 the first and 4 the
/// second flash select names no DLL that is off, 5 the LPSYS source is ready, 6 LPSYS
/// HCLK above 24 MHz has supply S.
pub fn fit(head: &Head) -> [u64; 3] {
    let registers = &head.registers;
    let limit = rail_limit(registers);
    let hclk = readings::hclk(head);
    let is_dark =
        |select: u32| matches!(select, 1 | 2) && registers[2 + select as usize] >> 16 == 0;
    let [first, second] = flash_selects(registers);
    let [source, lpsys_hclk, ..] = readings::read_lpsys(head);
    let failing = [
        hclk.is_none(),
        hclk.is_some_and(|hclk| hclk > limit),
        is_dark(first),
        is_dark(second),
        source == 0,
        lpsys_hclk > LPSYS_D_LIMIT && registers[28] == 0,
    ];
    let clause = (1..).zip(failing).find(|&(_, fails)| fails);
    let clause = clause.map_or(0, |(number, _)| number);
    [limit.into(), tasks::load(&head.tasks), clause]
}

/// "Peak is the highest mode among the present HCLK's, D1 and the target's."
pub fn peak(present: u32, target: u32) -> Mode {
    mode(present).max(D1).max(mode(target))
}

/// # Panics
///
/// Panics above 240 MHz.
fn mode(hclk: u32) -> Mode {
    HpsysDvfsMode::from_hertz(Hertz(hclk)).expect("at most 240 MHz") as Mode
}

/// A mode's buck and ldo in the registers of its supply.
fn supply(mode: Mode) -> [(usize, u32); 2] {
    let row = &HPSYS_DVFS_CONFIG[mode];
    match mode {
        D0 | D1 => [
            (15, row.buck.into()),
            (16, (REFERENCE + row.ldo_offset) as u32),
        ],
        _ => [(13, row.buck.into()), (14, row.ldo.into())],
    }
}

/// Register 12 for a mode's supply.
fn supply_select(mode: Mode) -> u32 {
    (mode <= D1).into()
}

/// A mode's memory timing.
fn timing(mode: Mode) -> u32 {
    HPSYS_DVFS_CONFIG[mode].ulpmcr.0
}

fn flash_selects(registers: &Registers) -> [u32; 2] {
    [registers[5] >> 8 & 0xFF, registers[5] & 0xFF]
}

/// A change whose tests are passed.
struct Running<'a> {
    head: Head,
    entries: Vec<u32>,
    answers: &'a [u16],
    taken: usize,
}

impl Running<'_> {
    /// The order (1) to (8).
    fn steps(&mut self, plan: &[u8], present: u32, target: u32) -> Result<(), u64> {
        let selects = flash_selects(&self.head.registers);
        let is_moved = selects.contains(&1);
        self.raise(peak(present, target))?;
        if is_moved {
            self.put_flash(selects.map(|select| if select == 1 { 0 } else { select }));
        }
        if self.head.registers[1] != 1 {
            self.store(1, 1);
        }
        if plan[at::DLL1] == 1 {
            self.configure_dll1(plan[at::DLL1 + 1].into(), plan[at::DLL1 + 2].into())?;
        }
        let dividers = [0, plan[at::HDIV], plan[at::PDIV1], plan[at::PDIV2]];
        self.store(2, u32::from_be_bytes(dividers));
        self.store(1, plan[at::CORE].into());
        if is_moved {
            self.put_flash(selects);
        }
        self.settle(mode(target));
        Ok(())
    }

    /// (1).
    fn raise(&mut self, peak: Mode) -> Result<(), u64> {
        if rail_limit(&self.head.registers) >= LIMITS[peak] {
            return Ok(());
        }
        self.store_all(supply(peak));
        if peak >= S0 {
            self.store(12, supply_select(peak));
        }
        self.delay(250)?;
        if peak >= S0 {
            self.store(17, timing(peak));
        }
        Ok(())
    }

    /// (4): the stores, delay and wait of the original's `configure_dll1`.
    fn configure_dll1(&mut self, stage: u32, half: u32) -> Result<(), u64> {
        for flag in [0x0100, 0x0001] {
            let flags = self.head.registers[11];
            if flags & flag == 0 {
                self.store(11, flags | flag);
            }
        }
        self.store(3, self.head.registers[3] & 0xFFFF);
        self.store(3, 0x010000 | half << 8 | stage);
        self.delay(10)?;
        self.wait(Kind::Dll1)
    }

    /// (8).
    fn settle(&mut self, target: Mode) {
        self.store_all(supply(target));
        self.store(17, timing(target));
        self.store(12, supply_select(target));
    }

    fn put_flash(&mut self, [first, second]: [u32; 2]) {
        self.store(5, first << 8 | second);
    }

    fn store_all(&mut self, stores: [(usize, u32); 2]) {
        for (number, value) in stores {
            self.store(number, value);
        }
    }

    fn store(&mut self, number: usize, value: u32) {
        self.head.registers[number] = value;
        self.entries.push(entry(number as u32, value));
    }

    /// So many microseconds of the HCLK that reads; `original` is what lib.rs has for them.
    fn delay(&mut self, us: u32) -> Result<(), u64> {
        let hclk = readings::hclk(&self.head).ok_or(34u64)?;
        let cycles = u64::from(hclk) * u64::from(us) / 1_000_000;
        let delay = Delay {
            place: self.entries.len(),
            us,
            hclk,
            original: entry(DELAY, cycles as u32),
        };
        self.entries.push(delay.wanted());
        delay::keep(|| delay);
        Ok(())
    }

    /// Takes the answers up to the first that is ready; all where none is.
    fn wait(&mut self, kind: Kind) -> Result<(), u64> {
        let Some(place) = self.answers.iter().position(|&answer| answer != 0) else {
            self.taken = self.answers.len();
            return Err(36);
        };
        self.taken = place + 1;
        let value = (kind as u32) << 16 | self.taken as u32;
        self.entries.push(entry(WAIT, value));
        Ok(())
    }
}
