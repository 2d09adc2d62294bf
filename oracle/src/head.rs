//! The head record of document 01, "The head and its journal", with its
//! refusals 1 to 3. Written from document 01 and the open points 1 to 3.

use crate::random::Random;

/// A head is lent as a buffer of this many bytes.
pub const BUFFER: usize = 255;

/// Registers 1 to 34 by number, each the 24-bit value of its bytes a, b, c.
pub type Registers = [u32; 35];

/// Where each part lies in the record; register n has the bytes a, b, c at 3 n.
pub mod at {
    pub const VERSION: usize = 2;
    /// HXT48, HRC48 and LPSYS HXT48 ready.
    pub const FLAGS: usize = 105;
    pub const BOOT_MODE: usize = 108;
    pub const WAKE_COUNT: usize = 109;
    pub const COUNT: usize = 110;
    pub const TASKS: usize = 111;
    pub const fn a(number: usize) -> usize {
        3 * number
    }
    pub const fn b(number: usize) -> usize {
        3 * number + 1
    }
    pub const fn c(number: usize) -> usize {
        3 * number + 2
    }
}

pub const MOST_TASKS: usize = 16;
/// The bytes of a task.
pub const TASK: usize = 9;
/// A task's longest period in microseconds.
pub const LONGEST_PERIOD: u32 = 10_000_000;

/// The largest value of the bytes a, b, c of registers 1 to 34. An unused byte
/// has 0, a free one 255.
pub const LARGEST: [[u8; 3]; 34] = [
    [0, 0, 3],     // 1 core select
    [255, 7, 7],   // 2 hdiv, pdiv1, pdiv2
    [1, 1, 15],    // 3 DLL1: on, half, stage
    [1, 1, 15],    // 4 DLL2
    [0, 3, 3],     // 5 flash selects, 3 reserved
    [0, 0, 1],     // 6 peripheral
    [0, 0, 1],     // 7 USB source
    [0, 0, 7],     // 8 USB divider
    [0, 0, 0],     // 9 tick
    [0, 0, 1],     // 10 low-power select
    [0, 1, 1],     // 11 hpbg_en, hpbg_vddpsw_en
    [0, 0, 1],     // 12 HPSYS supply
    [0, 0, 15],    // 13 buck_vout
    [0, 0, 15],    // 14 hpsys_vout
    [0, 0, 15],    // 15 set_vout_m
    [0, 0, 15],    // 16 hpsys_ldo vref
    [0, 255, 255], // 17 memory timing
    [0, 255, 255], // 18 clkhp_sel, clklp_sel
    [0, 3, 255],   // 19 trim, 0 to 1023
    [0, 255, 255], // 20 calibration length
    [0, 0, 1],     // 21 calibration on
    [0, 0, 1],     // 22 HXT48 request
    [0, 0, 1],     // 23 LRC32 on
    [0, 0, 1],     // 24 DLL buffer on
    [0, 0, 1],     // 25 LPSYS select
    [255, 7, 7],   // 26 LPSYS hdiv1, pdiv1, pdiv2
    [0, 0, 1],     // 27 LPSYS peripheral
    [0, 0, 1],     // 28 LPSYS supply
    [0, 0, 15],    // 29 lpsys_vout
    [0, 0, 15],    // 30 LPSYS vref
    [0, 255, 255], // 31 LPSYS timing
    [0, 0, 1],     // 32 LPSYS HXT48 request
    [0, 0, 1],     // 33 HP2LP request
    [0, 255, 255], // 34 macdiv, macfreq
];

#[derive(Clone, Copy, PartialEq, Eq, Debug)]
pub struct Task {
    pub id: u8,
    pub cycles: u32,
    pub period_us: u32,
}

#[derive(Clone, PartialEq, Eq, Debug)]
pub struct Head {
    pub registers: Registers,
    pub hxt48_ready: bool,
    pub hrc48_ready: bool,
    pub lpsys_hxt48_ready: bool,
    pub boot_mode: u8,
    pub wake_count: u8,
    pub tasks: Vec<Task>,
}

/// All registers, flags and counts 0, no tasks.
impl Default for Head {
    fn default() -> Self {
        Self {
            registers: [0; 35],
            hxt48_ready: false,
            hrc48_ready: false,
            lpsys_hxt48_ready: false,
            boot_mode: 0,
            wake_count: 0,
            tasks: Vec::new(),
        }
    }
}

/// A head from its lent buffer, or the refusal 1, 2 or 3.
pub fn decode(buffer: &[u8]) -> Result<Head, u64> {
    if buffer.len() != BUFFER {
        return Err(1);
    }
    let count = buffer[at::COUNT] as usize;
    let length = u16::from_be_bytes([buffer[0], buffer[1]]) as usize;
    if count > MOST_TASKS || length != 109 + TASK * count {
        return Err(1);
    }
    if buffer[at::VERSION] != 1 {
        return Err(2);
    }
    let flags = &buffer[at::FLAGS..at::FLAGS + 3];
    if flags.iter().any(|&flag| flag > 1) {
        return Err(3);
    }
    Ok(Head {
        registers: registers(&buffer[at::a(1)..at::FLAGS])?,
        hxt48_ready: flags[0] == 1,
        hrc48_ready: flags[1] == 1,
        lpsys_hxt48_ready: flags[2] == 1,
        boot_mode: buffer[at::BOOT_MODE],
        wake_count: buffer[at::WAKE_COUNT],
        tasks: tasks(&buffer[at::TASKS..at::TASKS + TASK * count])?,
    })
}

fn registers(bytes: &[u8]) -> Result<Registers, u64> {
    let mut registers = [0; 35];
    for (index, largest) in LARGEST.iter().enumerate() {
        let value = &bytes[3 * index..3 * index + 3];
        if value.iter().zip(largest).any(|(byte, most)| byte > most) {
            return Err(3);
        }
        registers[index + 1] = u32::from_be_bytes([0, value[0], value[1], value[2]]);
    }
    Ok(registers)
}

fn tasks(bytes: &[u8]) -> Result<Vec<Task>, u64> {
    let mut tasks: Vec<Task> = Vec::new();
    for record in bytes.chunks_exact(TASK) {
        let task = Task::decode(record);
        if !task.is_legal() || tasks.iter().any(|other| other.id == task.id) {
            return Err(3);
        }
        tasks.push(task);
    }
    Ok(tasks)
}

impl Task {
    /// From its nine bytes.
    pub fn decode(record: &[u8]) -> Self {
        Self {
            id: record[0],
            cycles: u32::from_be_bytes([record[1], record[2], record[3], record[4]]),
            period_us: u32::from_be_bytes([record[5], record[6], record[7], record[8]]),
        }
    }

    /// Its nine bytes.
    pub fn encode(&self) -> [u8; TASK] {
        let mut record = [0; TASK];
        record[0] = self.id;
        record[1..5].copy_from_slice(&self.cycles.to_be_bytes());
        record[5..].copy_from_slice(&self.period_us.to_be_bytes());
        record
    }

    /// Not what 16 refuses.
    pub fn is_legal(&self) -> bool {
        self.id != 0 && self.cycles != 0 && (1..=LONGEST_PERIOD).contains(&self.period_us)
    }
}

impl Head {
    /// All oscillators ready, the core on HXT48, everything else 0, no tasks.
    pub fn plain() -> Self {
        let mut head = Self {
            hxt48_ready: true,
            hrc48_ready: true,
            lpsys_hxt48_ready: true,
            ..Self::default()
        };
        head.registers[1] = 1;
        head
    }

    /// Every byte any of its values, and up to 16 tasks.
    pub fn random(random: &mut Random) -> Self {
        let mut head = Self {
            hxt48_ready: !random.once_in(4),
            hrc48_ready: !random.once_in(4),
            lpsys_hxt48_ready: !random.once_in(4),
            boot_mode: random.pick(&[0, 0, 0, 3, 255]),
            wake_count: random.pick(&[0, 1, 2, 255, 100]),
            ..Self::default()
        };
        for (index, largest) in LARGEST.iter().enumerate() {
            let [a, b, c] = largest.map(|most| random.up_to(most));
            head.registers[index + 1] = u32::from_be_bytes([0, a, b, c]);
        }
        head.tasks = (0..random.below(MOST_TASKS + 1))
            .map(|index| Task {
                id: 1 + index as u8 * 15 + random.up_to(14),
                cycles: 1 + random.below(1 << 28) as u32,
                period_us: 1 + random.below(10_000_000) as u32,
            })
            .collect();
        head
    }

    /// Writes the record at the front of a buffer; the bytes past it stay.
    pub fn encode(&self, buffer: &mut [u8; BUFFER]) {
        let length = 109 + TASK * self.tasks.len();
        buffer[..2].copy_from_slice(&(length as u16).to_be_bytes());
        buffer[at::VERSION] = 1;
        for (number, value) in self.registers.iter().enumerate().skip(1) {
            buffer[at::a(number)..=at::c(number)].copy_from_slice(&value.to_be_bytes()[1..]);
        }
        buffer[at::FLAGS] = self.hxt48_ready.into();
        buffer[at::FLAGS + 1] = self.hrc48_ready.into();
        buffer[at::FLAGS + 2] = self.lpsys_hxt48_ready.into();
        buffer[at::BOOT_MODE] = self.boot_mode;
        buffer[at::WAKE_COUNT] = self.wake_count;
        buffer[at::COUNT] = self.tasks.len() as u8;
        for (index, task) in self.tasks.iter().enumerate() {
            let at = at::TASKS + TASK * index;
            buffer[at..at + TASK].copy_from_slice(&task.encode());
        }
    }
}
