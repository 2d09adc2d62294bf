//! What librikkovan.a exports, as `include/rikkovan.h` declares it. Lengths are of 64 bits on every
//! chip.

extern "C" {
    pub fn rikkovan_plan_check(plan: *const u8, plan_len: u64) -> u64;

    pub fn rikkovan_read_clocks(head: *const u8, head_len: u64, clocks: *mut u32) -> u64;
    pub fn rikkovan_read_lpsys(head: *const u8, head_len: u64, lpsys: *mut u32) -> u64;
    pub fn rikkovan_read_fit(head: *const u8, head_len: u64, fit: *mut u64) -> u64;
    pub fn rikkovan_moment(
        head: *mut u8,
        head_len: u64,
        entries: *const u32,
        entries_len: u64,
    ) -> u64;

    pub fn rikkovan_config_lpsys_hclk_mhz(
        head: *mut u8,
        head_len: u64,
        freq_mhz: u32,
        journal: *mut u32,
        journal_len: u64,
    ) -> u64;
    pub fn rikkovan_ensure_safe_lcpu_frequency(
        head: *mut u8,
        head_len: u64,
        journal: *mut u32,
        journal_len: u64,
    ) -> u64;
    pub fn rikkovan_set_lpsys_hdiv(
        head: *mut u8,
        head_len: u64,
        hdiv: u8,
        journal: *mut u32,
        journal_len: u64,
    ) -> u64;
    pub fn rikkovan_set_lpsys_div(
        head: *mut u8,
        head_len: u64,
        hdiv: u8,
        pdiv1: u8,
        pdiv2: u8,
        journal: *mut u32,
        journal_len: u64,
    ) -> u64;
    pub fn rikkovan_config_lpsys_mac_clock(
        head: *mut u8,
        head_len: u64,
        macdiv: u8,
        macfreq: u8,
        journal: *mut u32,
        journal_len: u64,
    ) -> u64;
    pub fn rikkovan_select_lpsys_sysclk(
        head: *mut u8,
        head_len: u64,
        source: u8,
        journal: *mut u32,
        journal_len: u64,
    ) -> u64;
    pub fn rikkovan_select_lpsys_peri(
        head: *mut u8,
        head_len: u64,
        source: u8,
        journal: *mut u32,
        journal_len: u64,
    ) -> u64;
    pub fn rikkovan_cancel_lcpu_active_request(
        head: *mut u8,
        head_len: u64,
        journal: *mut u32,
        journal_len: u64,
    ) -> u64;
    pub fn rikkovan_wake_lcpu(
        head: *mut u8,
        head_len: u64,
        journal: *mut u32,
        journal_len: u64,
        answers: *const u16,
        answers_len: u64,
    ) -> u64;
    pub fn rikkovan_ensure_hxt48_ready(
        head: *mut u8,
        head_len: u64,
        journal: *mut u32,
        journal_len: u64,
        answers: *const u16,
        answers_len: u64,
    ) -> u64;

    pub fn rikkovan_calibrate_hrc48(
        head: *mut u8,
        head_len: u64,
        journal: *mut u32,
        journal_len: u64,
        answers: *const u16,
        answers_len: u64,
    ) -> u64;
    pub fn rikkovan_init(
        head: *mut u8,
        head_len: u64,
        plan: *const u8,
        plan_len: u64,
        clocks: *mut u32,
        journal: *mut u32,
        journal_len: u64,
        answers: *const u16,
        answers_len: u64,
    ) -> u64;
    pub fn rikkovan_reconfigure_sysclk(
        head: *mut u8,
        head_len: u64,
        plan: *const u8,
        plan_len: u64,
        clocks: *mut u32,
        journal: *mut u32,
        journal_len: u64,
        answers: *const u16,
        answers_len: u64,
    ) -> u64;

    pub fn rikkovan_load_check(tasks: *const u8, tasks_len: u64) -> u64;
    pub fn rikkovan_book(head: *mut u8, head_len: u64, id: u8, cycles: u32, period_us: u32) -> u64;
    pub fn rikkovan_release(head: *mut u8, head_len: u64, id: u8) -> u64;
    pub fn rikkovan_look_up(head: *const u8, head_len: u64, id: u8) -> u64;

    pub fn rikkovan_change(
        head: *mut u8,
        head_len: u64,
        plan: *const u8,
        plan_len: u64,
        journal: *mut u32,
        journal_len: u64,
        answers: *const u16,
        answers_len: u64,
    ) -> u64;
}
