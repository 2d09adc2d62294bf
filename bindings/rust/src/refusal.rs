//! Why a call is refused.

use crate::numbered::{numbered, worded};
use core::error::Error;
use core::fmt::{self, Display, Formatter};

worded! {
    /// Why a call is refused: the first of its tests that fails.
    ///
    /// Numbers 1 to 18 refuse what a call was given, and 31 to 43 the state of the head. Numbers 32
    /// to 36 keep what was done before them; every other refusal changes nothing.
    Refusal: u32 {
        Length = 1, "a record or buffer has the wrong length";
        Version = 2, "the version is unknown";
        Code = 3, "a byte holds what its field may not hold";
        CoreDll1 = 4, "the core is on DLL1, and DLL1 is absent";
        CoreDbl96 = 5, "the core is on DBL96, which is not supported";
        Mpi1 = 6, "flash 1 is on a DLL that is absent";
        Mpi2 = 7, "flash 2 is on a DLL that is absent";
        UsbDll2 = 8, "the USB source is DLL2, and DLL2 is absent";
        UsbClock = 9, "the USB source is not a multiple of 60 MHz";
        CoreClock = 10, "the core is on DLL1, and DLL1 is below 24 MHz";
        Hclk = 11, "HCLK is above 240 MHz";
        Pclk1 = 12, "PCLK1 is above 120 MHz, or above 48 MHz with HCLK at most 48 MHz";
        Pclk2 = 13, "PCLK2 is above 7.5 MHz, or above 6 MHz with HCLK at most 48 MHz";
        Dll2 = 14, "DLL2 before halving is above 288 MHz with HCLK above 48 MHz";
        LpsysRequest = 15, "the LPSYS request is 0 or above 48 MHz";
        Task = 16, "a task's id or cycles are 0, or its period is outside 1 to 10,000,000 us";
        Journal = 17, "the journal is shorter than 128 words";
        Answers = 18, "there are more than 4,096 answers";
        Hxt48NotReady = 31, "HRC48 cannot be calibrated, since HXT48 is not ready";
        OnHrc48 = 32, "init must calibrate HRC48, the core is on it, and HXT48 is not ready";
        Difference = 33, "the calibration of HRC48 ended with a difference above 160";
        HclkUnreadable = 34, "HCLK cannot be read";
        PresentHclk = 35, "the present HCLK is above 240 MHz at a supply transition";
        AnswersRanOut = 36, "the answers ran out in a wait or a measurement";
        Unfit = 37, "the head is not fit for a guarded change";
        Oscillator = 38, "HXT48 is not ready, or HRC48 is planned and not ready";
        Load = 39, "the load is above HCLK";
        IdInUse = 40, "a task's id is in use already";
        Tasks = 41, "there are more than sixteen tasks";
        IdUnknown = 42, "no task has the id";
        LpsysHclkUnreadable = 43, "the LPSYS HCLK cannot be read";
    }
}

impl Refusal {
    /// The refusal of a number that the library returned, which has no others.
    pub(crate) fn of_number(number: u32) -> Self {
        Self::from_number(number).expect("a refusal of librikkovan.a")
    }

    /// The same where 0 is for none.
    pub(crate) fn unless_0(number: u32) -> Option<Self> {
        (number != 0).then(|| Self::of_number(number))
    }
}

impl Display for Refusal {
    fn fmt(&self, f: &mut Formatter<'_>) -> fmt::Result {
        f.pad(self.words())
    }
}

impl Error for Refusal {}

impl TryFrom<u32> for Refusal {
    type Error = UnknownRefusal;

    fn try_from(number: u32) -> Result<Self, UnknownRefusal> {
        Self::from_number(number).ok_or(UnknownRefusal(number))
    }
}

/// A number that no refusal has.
#[derive(Debug, Clone, Copy, PartialEq, Eq)]
pub struct UnknownRefusal(pub u32);

impl Display for UnknownRefusal {
    fn fmt(&self, f: &mut Formatter<'_>) -> fmt::Result {
        write!(f, "no refusal has the number {}", self.0)
    }
}

impl Error for UnknownRefusal {}
