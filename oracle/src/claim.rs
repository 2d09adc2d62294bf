//! Demand 3 of the mission, asked of what calls were given and what they left. It
//! is written from document 01 and shares nothing with the model of the guarded
//! change but decoder, readings and load.

use crate::head::{Head, Registers, Task};
use crate::plan::at;
use crate::readings;
use crate::tasks::load;

/// A call that is refused changes nothing but where it is refused with these.
const KEEPING: std::ops::RangeInclusive<u64> = 32..=36;

/// What a call was given and what it left.
pub struct Seen<'a> {
    pub before: &'a Head,
    pub answer: u64,
    pub entries: &'a [u32],
    pub taken: usize,
    pub after: &'a Head,
}

/// A clause that does not hold.
pub type Broken = String;

/// The moments of a call: "the head a call got with the stores of its first
/// entries, none to all, put in".
pub fn moments(before: &Registers, entries: &[u32]) -> Vec<Registers> {
    let mut moments = vec![*before];
    let mut registers = *before;
    for entry in entries {
        let number = (entry >> 24) as usize;
        if (1..=34).contains(&number) {
            registers[number] = entry & 0xFF_FFFF;
        }
        moments.push(registers);
    }
    moments
}

/// The highest clock that the active rails carry, in MHz. Rows by supply: MHz,
/// then the least of the two registers.
pub fn rails(registers: &Registers) -> u32 {
    const ROWS: [[(u32, u32, u32); 2]; 2] =
        [[(144, 13, 11), (240, 15, 13)], [(24, 9, 6), (48, 10, 8)]];
    let on_d = registers[12] == 1;
    let (buck, ldo) = if on_d {
        (registers[15], registers[16])
    } else {
        (registers[13], registers[14])
    };
    let mut most = 0;
    for (mhz, least_buck, least_ldo) in ROWS[on_d as usize] {
        if buck >= least_buck && ldo >= least_ldo {
            most = mhz;
        }
    }
    most
}

/// The clock that the core runs on, in Hz: register 1's where the low-power
/// select is 0, else one of at most 100,000 Hz.
fn core_clock(head: &Head, registers: &Registers) -> Option<u32> {
    if registers[10] != 0 {
        return Some(100_000);
    }
    let dll1 = registers[3];
    let sysclk = match registers[1] {
        0 if head.hrc48_ready => 48_000_000,
        1 if head.hxt48_ready => 48_000_000,
        3 if dll1 >> 16 == 1 => (24_000_000 * ((dll1 & 0xFF) + 1)) >> (dll1 >> 8 & 1),
        _ => return None,
    };
    Some(sysclk / (registers[2] >> 16).max(1))
}

/// "HCLK [..] reads and is at most the limit of the active supply rails, LPSYS
/// runs at no more than 24 MHz while on its D supply, and no flash clock is taken
/// from a DLL that is off."
fn at_moment(head: &Head, registers: &Registers) -> Result<(), Broken> {
    let limit = 1_000_000 * rails(registers);
    let moment = Head {
        registers: *registers,
        tasks: Vec::new(),
        ..*head
    };
    match readings::hclk(&moment) {
        None => return Err("HCLK does not read".to_string()),
        Some(hclk) if hclk > limit => {
            return Err(format!("HCLK reads {hclk}, the rails carry {limit}"));
        }
        Some(_) => {}
    }
    match core_clock(head, registers) {
        None => return Err("the core has no clock".to_string()),
        Some(hclk) if hclk > limit => {
            return Err(format!("HCLK is {hclk}, the rails carry {limit}"));
        }
        Some(_) => {}
    }
    let lpsys = 48_000_000 / (registers[26] >> 16).max(1);
    if registers[28] == 0 && lpsys > 24_000_000 {
        return Err(format!("LPSYS runs at {lpsys} on D"));
    }
    for select in [registers[5] >> 8 & 0xFF, registers[5] & 0xFF] {
        if matches!(select, 1 | 2) && registers[2 + select as usize] >> 16 == 0 {
            return Err(format!("a flash is on DLL{select}, which is off"));
        }
    }
    Ok(())
}

/// Whether a head is fit: the first moment is as it has to be, and the LPSYS
/// source is ready.
pub fn is_fit(head: &Head) -> bool {
    let is_ready = match head.registers[25] {
        0 => head.hrc48_ready,
        _ => head.hxt48_ready,
    };
    is_ready && at_moment(head, &head.registers).is_ok()
}

/// Of every call on a fit head: each of its moments, and that "the registers of
/// its last moment are those it returns". Of a call on any head: what a refusal
/// keeps, and that flags stay.
pub fn of_call(seen: &Seen) -> Result<(), Broken> {
    let moments = moments(&seen.before.registers, seen.entries);
    if is_fit(seen.before) {
        for (place, registers) in moments.iter().enumerate() {
            let broken = at_moment(seen.before, registers);
            broken.map_err(|text| format!("after {place} entries {text}"))?;
        }
    }
    if moments.last() != Some(&seen.after.registers) {
        return Err("the last moment is not the head that is returned".to_string());
    }
    let flags = |head: &Head| [head.hxt48_ready, head.hrc48_ready, head.lpsys_hxt48_ready];
    if flags(seen.before) != flags(seen.after) {
        return Err("a ready flag changed".to_string());
    }
    let is_refused = seen.answer != 0 && !KEEPING.contains(&seen.answer);
    let is_changed = !seen.entries.is_empty() || seen.taken != 0 || seen.before != seen.after;
    if is_refused && is_changed {
        return Err(format!("refused {}, and not left as it was", seen.answer));
    }
    Ok(())
}

/// One wait is recorded, that for DLL1, where the plan has it and the change is done.
fn waits_once(seen: &Seen, waits: bool) -> Result<(), Broken> {
    let waited: Vec<u32> = seen.entries.iter().copied().filter(is_wait).collect();
    let wanted = match (waits, seen.answer) {
        (true, 0) => vec![0x3103_0000 + seen.taken as u32],
        _ => Vec::new(),
    };
    if waited != wanted {
        return Err(format!("the waits are {waited:X?}"));
    }
    Ok(())
}

/// Of a guarded change: "Every change that no test refuses before its first store
/// is answered done exactly when its plan has no DLL1 or one of the answers lent
/// to it is ready; otherwise it is refused 36. [..] a change answered done leaves
/// HCLK at its plan's and the booked load at most HCLK." The tasks stay, and the
/// wait for DLL1 says how many answers were taken.
pub fn of_change(seen: &Seen, plan: &[u8], answers: &[u16]) -> Result<(), Broken> {
    of_call(seen)?;
    if seen.before.tasks != seen.after.tasks {
        return Err("a task changed".to_string());
    }
    if !matches!(seen.answer, 0 | 32..=36) {
        return Ok(());
    }
    if !is_fit(seen.before) {
        return Err("a head that is not fit is changed".to_string());
    }
    let waits = plan[at::DLL1] == 1;
    let ready = answers.iter().position(|&answer| answer != 0);
    let (answer, taken) = match (waits, ready) {
        (false, _) => (0, 0),
        (true, Some(place)) => (0, place + 1),
        (true, None) => (36, answers.len()),
    };
    if (seen.answer, seen.taken) != (answer, taken) {
        let got = (seen.answer, seen.taken);
        return Err(format!("answer and answers taken are {got:?}"));
    }
    if seen.entries.is_empty() {
        return Err("nothing is stored".to_string());
    }
    waits_once(seen, waits)?;
    if seen.answer == 0 {
        let hclk = readings::hclk(seen.after);
        if hclk != Some(planned(plan)) {
            return Err(format!("done, and HCLK reads {hclk:?}"));
        }
        load_is_carried(seen.after)?;
    }
    Ok(())
}

/// "Number 49 is a wait that ended".
fn is_wait(entry: &u32) -> bool {
    entry >> 24 == 49
}

/// "HCLK is the core clock divided by hdiv, rounded down; hdiv 0 divides by 1."
pub fn planned(plan: &[u8]) -> u32 {
    let core = match plan[at::CORE] {
        3 => (24_000_000 * (u32::from(plan[at::DLL1 + 1]) + 1)) >> plan[at::DLL1 + 2],
        _ => 48_000_000,
    };
    core / u32::from(plan[at::HDIV]).max(1)
}

/// Of a booking answered done: "the booked load is at most HCLK".
pub fn load_is_carried(head: &Head) -> Result<(), Broken> {
    let (load, hclk) = (load(&head.tasks), readings::hclk(head));
    match hclk.is_some_and(|hclk| load <= hclk.into()) {
        true => Ok(()),
        false => Err(format!("done, the load is {load}, HCLK reads {hclk:?}")),
    }
}

/// "Booked are the first head's tasks; a booking done adds its task, a release
/// done takes its id out; after each call the head holds just these, in that
/// order."
pub struct Booked(Vec<Task>);

impl Booked {
    pub fn of(first: &Head) -> Self {
        Self(first.tasks.clone())
    }

    pub fn add(&mut self, task: Task) {
        self.0.push(task);
    }

    pub fn take_out(&mut self, id: u8) {
        self.0.retain(|task| task.id != id);
    }

    pub fn are_held_by(&self, head: &Head) -> Result<(), Broken> {
        match self.0 == head.tasks {
            true => Ok(()),
            false => Err("the head does not hold just what is booked".to_string()),
        }
    }
}
