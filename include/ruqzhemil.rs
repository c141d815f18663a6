//! The functions of the static library for Rust over slices, with the numbers that include/ruqzhemil.h documents; the package in rust/ has them with types of
//! Rust's own. A slice meets what the library asks of its pointers, and a `&mut` borrow overlaps no other.

unsafe extern "C" {
    fn ruqzhemil_version() -> u64;
    fn ruqzhemil_check(plan: *const u8, plan_len: usize) -> u64;
    fn ruqzhemil_play(
        plan: *const u8,
        plan_len: usize,
        schedule: *const u8,
        schedule_len: usize,
        log: *mut u8,
        log_len: usize,
        out: *mut u8,
    ) -> u64;
    fn ruqzhemil_judge(version: u64, log: *const u8, log_len: usize) -> u64;
    fn ruqzhemil_preview(plan: *const u8, plan_len: usize, schedule: *const u8, schedule_len: usize, pick: u64, out: *mut u8) -> u64;
    fn ruqzhemil_canonical(plan: *const u8, plan_len: usize, area: *mut u8, area_len: usize) -> u64;
    fn ruqzhemil_show(plan: *const u8, plan_len: usize, area: *mut u8, area_len: usize) -> u64;
    fn ruqzhemil_read(text: *const u8, text_len: usize, area: *mut u8, area_len: usize) -> u64;
    fn ruqzhemil_bound(plan: *const u8, plan_len: usize) -> u64;
    fn ruqzhemil_witness(plan: *const u8, plan_len: usize, schedule: *const u8, schedule_len: usize, area: *mut u8, area_len: usize)
        -> u64;
    fn ruqzhemil_first_interleaving(plan: *const u8, plan_len: usize, n: u64, area: *mut u8, area_len: usize) -> u64;
    fn ruqzhemil_next_interleaving(
        plan: *const u8,
        plan_len: usize,
        n: u64,
        schedule: *const u8,
        schedule_len: usize,
        area: *mut u8,
        area_len: usize,
    ) -> u64;
    fn ruqzhemil_charge(plan: *const u8, plan_len: usize, schedule: *const u8, schedule_len: usize, option: u64) -> u64;
    fn ruqzhemil_comtrade(log: *const u8, log_len: usize, area: *mut u8, area_len: usize) -> u64;
}

/// Bytes of an outcome.
pub const OUT_BYTES: usize = 40;
/// Bytes of a preview.
pub const PREVIEW_BYTES: usize = 8;

#[allow(dead_code)]
pub fn version() -> u64 {
    unsafe { ruqzhemil_version() }
}

pub fn check(plan: &[u8]) -> u64 {
    unsafe { ruqzhemil_check(plan.as_ptr(), plan.len()) }
}

pub fn play(plan: &[u8], schedule: &[u8], log: &mut [u8], out: &mut [u8; OUT_BYTES]) -> u64 {
    unsafe { ruqzhemil_play(plan.as_ptr(), plan.len(), schedule.as_ptr(), schedule.len(), log.as_mut_ptr(), log.len(), out.as_mut_ptr()) }
}

pub fn judge(version: u64, log: &[u8]) -> u64 {
    unsafe { ruqzhemil_judge(version, log.as_ptr(), log.len()) }
}

pub fn preview(plan: &[u8], schedule: &[u8], pick: u64, out: &mut [u8; PREVIEW_BYTES]) -> u64 {
    unsafe { ruqzhemil_preview(plan.as_ptr(), plan.len(), schedule.as_ptr(), schedule.len(), pick, out.as_mut_ptr()) }
}

pub fn canonical(plan: &[u8], area: &mut [u8]) -> u64 {
    unsafe { ruqzhemil_canonical(plan.as_ptr(), plan.len(), area.as_mut_ptr(), area.len()) }
}

pub fn show(plan: &[u8], area: &mut [u8]) -> u64 {
    unsafe { ruqzhemil_show(plan.as_ptr(), plan.len(), area.as_mut_ptr(), area.len()) }
}

pub fn read(text: &[u8], area: &mut [u8]) -> u64 {
    unsafe { ruqzhemil_read(text.as_ptr(), text.len(), area.as_mut_ptr(), area.len()) }
}

pub fn bound(plan: &[u8]) -> u64 {
    unsafe { ruqzhemil_bound(plan.as_ptr(), plan.len()) }
}

pub fn witness(plan: &[u8], schedule: &[u8], area: &mut [u8]) -> u64 {
    unsafe { ruqzhemil_witness(plan.as_ptr(), plan.len(), schedule.as_ptr(), schedule.len(), area.as_mut_ptr(), area.len()) }
}

pub fn first_interleaving(plan: &[u8], n: u64, area: &mut [u8]) -> u64 {
    unsafe { ruqzhemil_first_interleaving(plan.as_ptr(), plan.len(), n, area.as_mut_ptr(), area.len()) }
}

pub fn next_interleaving(plan: &[u8], n: u64, schedule: &[u8], area: &mut [u8]) -> u64 {
    unsafe { ruqzhemil_next_interleaving(plan.as_ptr(), plan.len(), n, schedule.as_ptr(), schedule.len(), area.as_mut_ptr(), area.len()) }
}

pub fn charge(plan: &[u8], schedule: &[u8], option: u64) -> u64 {
    unsafe { ruqzhemil_charge(plan.as_ptr(), plan.len(), schedule.as_ptr(), schedule.len(), option) }
}

pub fn comtrade(log: &[u8], area: &mut [u8]) -> u64 {
    unsafe { ruqzhemil_comtrade(log.as_ptr(), log.len(), area.as_mut_ptr(), area.len()) }
}
