//! What a call leaves, done and refused.

use crate::{head, plan, stores, waits};
use rikkovan::rcc::PclkPrescaler;
use rikkovan::{
    Head, Hertz, Journal, LpsysSource, Megahertz, Plan, ReadyFlag, Refusal, Register, WaitKind,
    MOST_ANSWERS,
};

#[test]
fn a_refusal_that_keeps_what_was_done_has_its_journal() {
    let (mut changed, mut journal) = (head("s240-flash"), Journal::new());
    let outcome = changed.change(&plan("dll1-144"), &mut journal, &[0, 0]);
    let refused = outcome.unwrap_err();
    assert_eq!(refused.refusal, Refusal::AnswersRanOut);
    assert_eq!(Refusal::from(refused), Refusal::AnswersRanOut);
    assert_eq!(refused.taken, 2);
    assert_eq!(stores(&journal, Register::Flash), [2]);
    assert_eq!(stores(&journal, Register::Sysclk), [1]);
    assert_eq!(changed.register(Register::Flash), 2);
    assert_eq!(changed.register(Register::Sysclk), 1);
    let words = "refused 36: the answers ran out in a wait or a measurement";
    assert_eq!(refused.to_string(), words);
}

#[test]
fn all_answers_are_counted() {
    let answers = [0; MOST_ANSWERS];
    let outcome = head("d48").change(&Plan::DEFAULT, &mut Journal::new(), &answers);
    let refused = outcome.unwrap_err();
    assert_eq!(refused.refusal, Refusal::AnswersRanOut);
    assert_eq!(refused.taken, MOST_ANSWERS);
}

/// A journal that a call has written.
fn an_entry() -> Journal {
    let mut journal = Journal::new();
    Head::new().set_lpsys_hdiv(1, &mut journal).expect("hdiv");
    assert_eq!(journal.len(), 1);
    journal
}

#[test]
fn every_other_refusal_changes_nothing() {
    let refusals = [
        ("d48-low-volts", "default", Refusal::Unfit),
        ("d48-no-hxt48", "default", Refusal::Oscillator),
        ("s240-tasks", "dll1-144", Refusal::Load),
        ("s240", "pdiv1-zero", Refusal::Pclk1),
    ];
    for (name, to, refusal) in refusals {
        let (mut changed, mut journal) = (head(name), an_entry());
        let outcome = changed.change(&plan(to), &mut journal, &[1]);
        let refused = outcome.unwrap_err();
        assert_eq!(refused.refusal, refusal);
        assert!(journal.is_empty());
        assert_eq!(refused.taken, 0);
        assert_eq!(changed, head(name));
    }
    let answers = [1; MOST_ANSWERS + 1];
    let outcome = head("s240").change(&Plan::DEFAULT, &mut Journal::new(), &answers);
    assert_eq!(outcome.unwrap_err().refusal, Refusal::Answers);
}

#[test]
fn a_register_ends_with_the_last_store_into_it() {
    let plans = ["default", "dll1-120", "dll1-144", "low-power-24"];
    for name in ["d48", "s240", "s240-flash"] {
        for to in plans {
            let (mut changed, mut journal) = (head(name), an_entry());
            let outcome = changed.change(&plan(to), &mut journal, &[0, 0, 1]);
            assert!(outcome.is_ok());
            for &register in Register::ALL {
                let before = head(name).register(register);
                let last = stores(&journal, register).last().copied();
                assert_eq!(changed.register(register), last.unwrap_or(before));
            }
        }
    }
}

#[test]
fn init_gives_the_clocks() {
    let (mut head, mut journal) = (head("d48"), Journal::new());
    let outcome = head.init(&Plan::DEFAULT, &mut journal, &[1, 63, 0, 1]);
    let done = outcome.expect("done");
    assert_eq!(done.value.clocks, head.clocks());
    assert_eq!(done.value.uncalibrated, None);
    assert_eq!(waits(&journal, WaitKind::Calibration), [3]);
    assert_eq!(waits(&journal, WaitKind::Dll1), [1]);
    assert_eq!(done.taken, 4);
}

#[test]
fn init_says_why_hrc48_is_not_calibrated() {
    let mut journal = Journal::new();
    let mut init = |mut head: Head, answers: &[u16]| {
        let outcome = head.init(&Plan::DEFAULT, &mut journal, answers);
        let stored = stores(&journal, Register::Lrc32On);
        assert_eq!(stored, [1]);
        outcome
    };
    let refused = init(head("d48-no-hxt48"), &[1]).unwrap_err();
    assert_eq!(refused.refusal, Refusal::OnHrc48);

    let mut on_dll1 = head("s240");
    on_dll1.set_ready(ReadyFlag::Hxt48, false);
    let done = init(on_dll1, &[1]).expect("done");
    assert_eq!(done.value.uncalibrated, Some(Refusal::Hxt48NotReady));

    let answers = [[1, 161, 0].repeat(11), vec![1]].concat();
    let done = init(head("d48"), &answers).expect("done");
    assert_eq!(done.value.uncalibrated, Some(Refusal::Difference));
}

#[test]
fn reconfigure_keeps_the_audio_pll() {
    let mut head = head("d48");
    let mut former = head.clocks();
    former.clk_aud_pll = Some(Hertz::khz(49_152));
    let outcome = head.reconfigure_sysclk(&Plan::DEFAULT, former, &mut Journal::new(), &[1]);
    let clocks = outcome.expect("done").value;
    assert_eq!(clocks.clk_aud_pll, former.clk_aud_pll);
    assert_eq!(clocks.hclk, head.clocks().hclk);
    let hclk = clocks.hclk.map(Hertz::whole_megahertz);
    assert_eq!(hclk, Some(Megahertz(240)));
}

#[test]
fn the_lpsys_calls_store_what_they_name() {
    let (mut head, journal) = (Head::new(), &mut Journal::new());
    let refused = head.ensure_safe_lcpu_frequency(journal).unwrap_err();
    assert_eq!(refused.refusal, Refusal::LpsysHclkUnreadable);
    let woken = head.wake_lcpu(journal, &[1, 1]).unwrap_err();
    assert_eq!(woken.refusal, Refusal::HclkUnreadable);
    assert_eq!(stores(journal, Register::Hp2lpRequest), [1]);

    head.ensure_hxt48_ready(journal, &[1, 0, 1]).expect("ready");
    assert!(head.is_ready(ReadyFlag::Hxt48) && head.is_ready(ReadyFlag::LpsysHxt48));
    let hxt48 = LpsysSource::Hxt48;
    head.select_lpsys_sysclk(hxt48, journal).expect("clock");
    head.select_lpsys_peri(hxt48, journal).expect("clock");
    assert_eq!(head.register(Register::LpsysSysclk), 1);
    assert_eq!(head.register(Register::LpsysPeri), 1);
    let safe = head.ensure_safe_lcpu_frequency(journal).expect("safe");
    assert_eq!(safe.value, Hertz::mhz(48));
    assert_eq!(head.lpsys_clocks().hclk, Some(Hertz::mhz(24)));

    head.set_lpsys_hdiv(3, journal).expect("hdiv");
    assert_eq!(head.register(Register::LpsysCfgr), 0x03_0000);
    head.set_lpsys_div(4, PclkPrescaler::Div2, PclkPrescaler::Div128, journal)
        .expect("div");
    assert_eq!(head.register(Register::LpsysCfgr), 0x04_0107);
    head.config_lpsys_mac_clock(5, 6, journal).expect("mac");
    assert_eq!(head.register(Register::LpsysMac), 0x00_0506);

    head.set_register(Register::Sysclk, 1).expect("HXT48");
    let woken = head.wake_lcpu(journal, &[0, 1, 1]).expect("woken");
    assert_eq!((woken.taken, head.wake_count()), (3, 1));
    head.cancel_lcpu_active_request(journal).expect("cancelled");
    assert_eq!(stores(journal, Register::Hp2lpRequest), [0]);
    assert_eq!(head.wake_count(), 0);
}
