//! What decides whether a guarded change is made.

use crate::numbered::{numbered, worded};
use crate::time::Hertz;
use core::fmt::{self, Display, Formatter};

/// How many numbers [`bytes::read_fit`](crate::bytes::read_fit) reads.
pub const FIT_NUMBERS: usize = 3;

worded! {
    /// Why a head is not fit for a guarded change: the first that holds.
    Unfit: u32 {
        HclkUnreadable = 1, "HCLK cannot be read";
        Hclk = 2, "HCLK is above the rail limit";
        Mpi1 = 3, "flash 1 is on a DLL that is off";
        Mpi2 = 4, "flash 2 is on a DLL that is off";
        LpsysSource = 5, "the clock of the LPSYS select is not ready";
        LpsysHclk = 6, "the LPSYS HCLK is above 24 MHz on supply D";
    }
}

impl Display for Unfit {
    fn fmt(&self, f: &mut Formatter<'_>) -> fmt::Result {
        f.pad(self.words())
    }
}

/// What [`Head::fit`](crate::Head::fit) reads.
#[derive(Debug, Clone, Copy, PartialEq, Eq)]
pub struct Fit {
    /// The highest HCLK that the active supply carries; 0 where it carries none.
    pub rail_limit: Hertz,
    /// The load of the booked tasks, in cycles per second.
    pub load: u64,
    /// Why the head is not fit, `None` where it is.
    pub unfit: Option<Unfit>,
}

impl From<[u64; FIT_NUMBERS]> for Fit {
    fn from([rail_limit, load, unfit]: [u64; FIT_NUMBERS]) -> Self {
        Self {
            rail_limit: Hertz(rail_limit as u32),
            load,
            unfit: Unfit::from_number(unfit as u32),
        }
    }
}
