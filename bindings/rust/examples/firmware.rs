//! A guarded change as firmware makes it: the chip's registers become a head, a task is booked, and
//! the change is played to head and chip. Nothing is allocated.
//!
//! For a target without an operating system it is built as firmware is, without the standard library.

#![cfg_attr(target_os = "none", no_std, no_main)]

use rikkovan::{play, Asked, Chip, Head, Hertz, Journal, Plan, ReadyFlag, Refusal, Register, Task};

/// The head that the chip is, with its oscillators ready. A register that holds what it may not
/// hold is refused.
fn head_of(board: &Board) -> Result<Head, Refusal> {
    let mut head = Head::new();
    for &register in Register::ALL {
        head.set_register(register, board.read(register))?;
    }
    for &flag in ReadyFlag::ALL {
        head.set_ready(flag, true);
    }
    Ok(head)
}

/// Firmware has no place to print to.
#[cfg(target_os = "none")]
macro_rules! println {
    ($($what:tt)*) => { let _ = format_args!($($what)*); };
}

/// Stands in for a chip: on HXT48 at 48 MHz, supply D, LPSYS at 48 MHz on supply S.
struct Board {
    registers: [u32; 35],
    polls: u16,
}

impl Board {
    fn new() -> Self {
        let mut board = Self {
            registers: [0; 35],
            polls: 0,
        };
        for (register, value) in [
            (Register::Sysclk, 1),
            (Register::HpsysSupply, 1),
            (Register::SetVoutM, 10),
            (Register::HpsysLdo, 8),
            (Register::LpsysSupply, 1),
        ] {
            board.registers[usize::from(register.number())] = value;
        }
        board
    }

    fn read(&self, register: Register) -> u32 {
        self.registers[usize::from(register.number())]
    }
}

impl Chip for Board {
    fn store(&mut self, register: Register, value: u32) {
        self.registers[usize::from(register.number())] = value;
        println!("store {} {value:06X}", register.number());
    }

    fn delay(&mut self, cycles: u32) {
        println!("delay {cycles} cycles");
    }

    /// DLL1 is ready at the second poll.
    fn poll(&mut self, asked: Asked) -> u16 {
        let answer = self.polls;
        self.polls += 1;
        if let Asked::Ready(kind) = asked {
            println!("poll {}: {answer}", kind.number());
        }
        answer
    }
}

fn run() -> Result<(), Refusal> {
    let mut board = Board::new();
    let mut head = head_of(&board)?;
    let (mut journal, mut answers) = (Journal::new(), [0; 100]);

    head.book(Task {
        id: 1,
        cycles: 40_000,
        period_us: 1_000,
    })?;
    play(
        &mut board,
        &mut head,
        &mut journal,
        &mut answers,
        |head, journal, answers| head.change(&Plan::DEFAULT, journal, answers),
    )
    .map_err(|refused| refused.refusal)?;

    // The chip has the registers of the head, and runs at 240 MHz.
    for &register in Register::ALL {
        assert_eq!(board.read(register), head.register(register));
    }
    assert_eq!(head.clocks().hclk, Some(Hertz::mhz(240)));
    Ok(())
}

#[cfg(not(target_os = "none"))]
fn main() -> Result<(), Refusal> {
    run()
}

/// Where the chip starts; nothing is to be done behind it.
#[cfg(target_os = "none")]
#[no_mangle]
extern "C" fn _start() -> ! {
    let _ = run();
    loop {}
}

#[cfg(target_os = "none")]
#[panic_handler]
fn panic(_: &core::panic::PanicInfo<'_>) -> ! {
    loop {}
}
