//! The table of all calls, and what is wanted of each.

use crate::call::{self, Frequencies, Outcome};
use crate::change;
use crate::delay::kept;
use crate::head::{self, Head, Task};
use crate::lent::{Lent, REFUSED};
use crate::moment;
use crate::plan;
use crate::query::{Argument, Call, Clocks, Id, Query};
use crate::readings::{self, LpsysFrequencies};
use crate::tasks;

const BYTE: Argument = Argument {
    largest: 255,
    often: 0..=15,
    ends: &[0, 1, 255],
};

const EXPONENT: Argument = Argument {
    largest: 255,
    often: 0..=7,
    ends: &[0, 7, 8, 255],
};

const SOURCE: Argument = Argument {
    largest: 255,
    often: 0..=1,
    ends: &[0, 1, 2, 255],
};

const MHZ: Argument = Argument {
    largest: u32::MAX,
    often: 0..=60,
    ends: &[0, 1, 24, 25, 48, 49, u32::MAX],
};

const WORD: Argument = Argument {
    largest: u32::MAX,
    often: 0..=1000,
    ends: &[0, 1, u32::MAX],
};

/// A call that only reads a plan.
const ON_PLAN: Call = Call {
    id: Id::PlanCheck,
    name: "plan",
    function: "plan_check",
    arguments: &[],
    is_lent_plan: true,
    is_lent_bytes: false,
    clocks: Clocks::None,
    is_lent_journal: false,
    is_lent_answers: false,
    refusals: &[0, 1, 2, 3, 4, 5, 6, 7, 8, 9, 10, 11, 12, 13, 14],
    values: &[],
    delays: &[],
    wanted: |query, _| match plan::check(query.plan) {
        0 => 0,
        refusal => REFUSED | refusal,
    },
};

/// A call on a head or a list of tasks.
const ON_BYTES: Call = Call {
    is_lent_plan: false,
    is_lent_bytes: true,
    ..ON_PLAN
};

/// A call of LPSYS that is lent no answers.
const OF_LPSYS: Call = Call {
    is_lent_journal: true,
    refusals: &[0, 1, 2, 3, 17],
    ..ON_BYTES
};

/// A call that waits.
const WITH_ANSWERS: Call = Call {
    is_lent_answers: true,
    ..OF_LPSYS
};

/// A call that waits, as a plan has it.
const WITH_PLAN: Call = Call {
    is_lent_plan: true,
    ..WITH_ANSWERS
};

/// The plan check alone.
pub fn of_plans() -> &'static [Call] {
    &CALLS[..1]
}

/// The two readings of a head.
pub fn of_heads() -> &'static [Call] {
    &CALLS[1..3]
}

/// The ten calls of LPSYS.
pub fn lpsys() -> &'static [Call] {
    &CALLS[3..13]
}

/// The three calls of `rcc/clock_config.rs`.
pub fn config() -> &'static [Call] {
    &CALLS[13..16]
}

/// Load check, booking, release and look-up.
pub fn of_tasks() -> &'static [Call] {
    &CALLS[16..20]
}

/// The guarded change alone.
pub fn guarded() -> &'static [Call] {
    &CALLS[20..21]
}

pub static CALLS: [Call; 23] = [
    ON_PLAN,
    Call {
        id: Id::ReadClocks,
        name: "clocks",
        function: "read_clocks",
        clocks: Clocks::Read(15),
        refusals: &[0, 1, 2, 3],
        wanted: |query, lent| read(query, lent, |(clocks, _)| clocks.to_vec()),
        ..ON_BYTES
    },
    Call {
        id: Id::ReadLpsys,
        name: "lpsys",
        function: "read_lpsys",
        clocks: Clocks::Read(6),
        refusals: &[0, 1, 2, 3],
        wanted: |query, lent| read(query, lent, |(_, lpsys)| lpsys.to_vec()),
        ..ON_BYTES
    },
    Call {
        id: Id::Request,
        name: "request",
        function: "config_lpsys_hclk_mhz",
        arguments: &[MHZ],
        refusals: &[0, 1, 2, 3, 15, 17, 34],
        delays: &[250],
        wanted: |query, lent| {
            run(query, lent, |head| {
                call::config_lpsys_hclk_mhz(head, query.arguments[0])
            })
        },
        ..OF_LPSYS
    },
    Call {
        id: Id::Safe,
        name: "safe",
        function: "ensure_safe_lcpu_frequency",
        refusals: &[0, 1, 2, 3, 17, 43],
        wanted: |query, lent| run(query, lent, call::ensure_safe_lcpu_frequency),
        ..OF_LPSYS
    },
    Call {
        id: Id::Wake,
        name: "wake",
        function: "wake_lcpu",
        refusals: &[0, 1, 2, 3, 17, 18, 34, 36],
        delays: &[230, 30],
        wanted: |query, lent| run(query, lent, |head| call::wake_lcpu(head, query.answers)),
        ..WITH_ANSWERS
    },
    Call {
        id: Id::Cancel,
        name: "cancel",
        function: "cancel_lcpu_active_request",
        wanted: |query, lent| run(query, lent, call::cancel_lcpu_active_request),
        ..OF_LPSYS
    },
    Call {
        id: Id::Hxt48,
        name: "hxt48",
        function: "ensure_hxt48_ready",
        refusals: &[0, 1, 2, 3, 17, 18, 36],
        wanted: |query, lent| {
            run(query, lent, |head| {
                call::ensure_hxt48_ready(head, query.answers)
            })
        },
        ..WITH_ANSWERS
    },
    Call {
        id: Id::Hdiv,
        name: "hdiv",
        function: "set_lpsys_hdiv",
        arguments: &[BYTE],
        wanted: |query, lent| {
            let [hdiv, ..] = query.small();
            run(query, lent, |head| call::set_lpsys_hdiv(head, hdiv))
        },
        ..OF_LPSYS
    },
    Call {
        id: Id::Div,
        name: "div",
        function: "set_lpsys_div",
        arguments: &[BYTE, EXPONENT, EXPONENT],
        wanted: |query, lent| {
            let [hdiv, pdiv1, pdiv2] = query.small();
            run(query, lent, |head| {
                call::set_lpsys_div(head, hdiv, pdiv1, pdiv2)
            })
        },
        ..OF_LPSYS
    },
    Call {
        id: Id::Mac,
        name: "mac",
        function: "config_lpsys_mac_clock",
        arguments: &[BYTE, BYTE],
        wanted: |query, lent| {
            let [macdiv, macfreq, _] = query.small();
            run(query, lent, |head| {
                call::config_lpsys_mac_clock(head, macdiv, macfreq)
            })
        },
        ..OF_LPSYS
    },
    Call {
        id: Id::Sysclk,
        name: "sysclk",
        function: "select_lpsys_sysclk",
        arguments: &[SOURCE],
        wanted: |query, lent| {
            let [source, ..] = query.small();
            run(query, lent, |head| call::select_lpsys_sysclk(head, source))
        },
        ..OF_LPSYS
    },
    Call {
        id: Id::Peri,
        name: "peri",
        function: "select_lpsys_peri",
        arguments: &[SOURCE],
        wanted: |query, lent| {
            let [source, ..] = query.small();
            run(query, lent, |head| call::select_lpsys_peri(head, source))
        },
        ..OF_LPSYS
    },
    Call {
        id: Id::Calibrate,
        name: "calibrate",
        function: "calibrate_hrc48",
        refusals: &[0, 1, 2, 3, 17, 18, 31, 33, 34, 36],
        delays: &[3],
        wanted: |query, lent| {
            run(query, lent, |head| {
                call::calibrate_hrc48(head, query.answers)
            })
        },
        ..WITH_ANSWERS
    },
    Call {
        id: Id::Init,
        name: "init",
        function: "init",
        clocks: Clocks::Written,
        refusals: &[
            0, 1, 2, 3, 4, 5, 6, 7, 8, 9, 10, 11, 12, 13, 14, 17, 18, 32, 34, 35, 36,
        ],
        values: &[0, 31, 33],
        delays: &[3, 10, 250],
        wanted: |query, lent| {
            lent.clocks.fill(0);
            try_run(query, lent, |head| {
                let plan = plan::decode(query.plan)?;
                Ok(call::init(head, &plan, query.answers))
            })
        },
        ..WITH_PLAN
    },
    Call {
        id: Id::Reconfigure,
        name: "reconfigure",
        function: "reconfigure_sysclk",
        clocks: Clocks::Former,
        refusals: &[
            0, 1, 2, 3, 4, 5, 6, 7, 8, 9, 10, 11, 12, 13, 14, 17, 18, 34, 35, 36,
        ],
        delays: &[10, 250],
        wanted: |query, lent| {
            try_run(query, lent, |head| {
                let plan = plan::decode(query.plan)?;
                let (former, answers) = (&query.clocks, query.answers);
                Ok(call::reconfigure_sysclk(head, &plan, former, answers))
            })
        },
        ..WITH_PLAN
    },
    Call {
        id: Id::LoadCheck,
        name: "load",
        function: "load_check",
        refusals: &[0, 1, 16, 40, 41],
        wanted: |query, _| tasks::load_check(query.bytes).unwrap_or_else(|r| REFUSED | r),
        ..ON_BYTES
    },
    Call {
        id: Id::Book,
        name: "book",
        function: "book",
        arguments: &[BYTE, WORD, WORD],
        refusals: &[0, 1, 2, 3, 16, 34, 39, 40, 41],
        wanted: |query, lent| {
            let head = head::decode(query.bytes);
            lent.put_head(head.and_then(|head| tasks::book(&head, query.task())))
        },
        ..ON_BYTES
    },
    Call {
        id: Id::Release,
        name: "release",
        function: "release",
        arguments: &[BYTE],
        refusals: &[0, 1, 2, 3, 42],
        wanted: |query, lent| {
            let head = head::decode(query.bytes);
            lent.put_head(head.and_then(|head| tasks::release(&head, query.task().id)))
        },
        ..ON_BYTES
    },
    Call {
        id: Id::LookUp,
        name: "look_up",
        function: "look_up",
        arguments: &[BYTE],
        refusals: &[0, 1, 2, 3],
        values: &tasks::LOOK_UPS,
        wanted: |query, _| match head::decode(query.bytes) {
            Err(refusal) => REFUSED | refusal,
            Ok(head) => tasks::look_up(&head, query.task().id).value(),
        },
        ..ON_BYTES
    },
    Call {
        id: Id::Change,
        name: "change",
        function: "change",
        refusals: &change::ANSWERS,
        delays: &[10, 250],
        wanted: |query, lent| {
            try_run(query, lent, |head| {
                change::change(head, query.plan, query.answers)
            })
        },
        ..WITH_PLAN
    },
    Call {
        id: Id::ReadFit,
        name: "fit",
        function: "read_fit",
        clocks: Clocks::Read(6),
        refusals: &[0, 1, 2, 3],
        wanted: |query, lent| match head::decode(query.bytes) {
            Err(refusal) => REFUSED | refusal,
            Ok(head) => {
                lent.put_numbers(change::fit(&head));
                0
            }
        },
        ..ON_BYTES
    },
    Call {
        id: Id::Moment,
        name: "moment",
        function: "moment",
        is_lent_plan: true,
        refusals: &[0, 1, 2, 3],
        wanted: |query, lent| {
            let head = head::decode(query.bytes);
            let entries = moment::entries(query.plan);
            lent.put_head(head.and_then(|head| moment::moment(&head, &entries)))
        },
        ..ON_BYTES
    },
];

/// A reading of a head; a word that no call gives where the original code panics.
fn read<F>(query: &Query, lent: Lent, pick: F) -> u64
where
    F: Fn((Frequencies, LpsysFrequencies)) -> Vec<u32>,
{
    match head::decode(query.bytes).map(readings::both) {
        Err(refusal) => REFUSED | refusal,
        Ok(Err(_)) => u64::MAX,
        Ok(Ok(both)) => {
            lent.clocks.copy_from_slice(&pick(both));
            0
        }
    }
}

/// A call on a head that 17, 18 and 1 to 3 do not refuse.
fn run(query: &Query, lent: Lent, call: impl FnOnce(&Head) -> Outcome) -> u64 {
    try_run(query, lent, |head| Ok(call(head)))
}

/// The same of a call that has refusals of its own before it begins.
fn try_run(query: &Query, lent: Lent, call: impl FnOnce(&Head) -> Result<Outcome, u64>) -> u64 {
    let answers = query.call.is_lent_answers.then_some(query.answers.len());
    let head = call::admit(query.bytes, Some(query.journal), answers);
    let (outcome, delays) = kept(|| head.and_then(|head| call(&head)));
    lent.put(outcome, delays)
}

impl Query<'_> {
    /// The arguments of a call that takes bytes.
    pub fn small(&self) -> [u8; 3] {
        self.arguments.map(|argument| argument as u8)
    }

    /// The task of a booking, and the id of a release or a look-up.
    pub fn task(&self) -> Task {
        let [id, cycles, period_us] = self.arguments;
        Task {
            id: id as u8,
            cycles,
            period_us,
        }
    }
}
