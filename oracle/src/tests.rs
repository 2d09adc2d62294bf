//! Cases worked out by hand from document 01 and the original code.

mod calibration;
mod change;
mod delay;
mod fit;
mod init;
mod lpsys;
mod moment;
mod plan;
mod readings;
mod reconfigure;
mod record;
mod replay;
mod shrink;
mod tasks;

use crate::head::Head;
use crate::world::entry;

/// A head with all oscillators ready and the core at 240 MHz from DLL1.
fn at_240_mhz() -> Head {
    let mut head = at_48_mhz();
    head.registers[1] = 3;
    head.registers[2] = 0x010106;
    head.registers[3] = 0x010009;
    head
}

/// A head with all oscillators ready and the core at 48 MHz from HXT48.
fn at_48_mhz() -> Head {
    Head::plain()
}

/// A head whose HCLK does not read: the core is on DBL96.
fn on_dbl96() -> Head {
    let mut head = at_48_mhz();
    head.registers[1] = 2;
    head
}

fn entries(pairs: &[(u32, u32)]) -> Vec<u32> {
    pairs.iter().map(|&(n, value)| entry(n, value)).collect()
}
