//! The planner as Rattle compiles it, by the static library of the crate `planner_c`.

use crate::book::Step;
use crate::scores::Level;

#[repr(C)]
#[derive(Clone, Copy, PartialEq, Eq, Debug)]
pub struct Reply {
    pub refusal: u32,
    pub value: usize,
}

// a slice crosses as a pointer and a length
unsafe extern "C" {
    fn planner_check(starts: *const u32, starts_len: usize, ends: *const u16, ends_len: usize) -> Reply;
    fn planner_draw(starts: *const u32, starts_len: usize, ends: *const u16, ends_len: usize, more: usize, out: *mut u8, out_len: usize) -> Reply;
    fn planner_draw_grid(stations: usize, bytes: *const u8, bytes_len: usize, more: usize, out: *mut u8, out_len: usize) -> Reply;
    fn planner_numbers(starts: *const u32, starts_len: usize, ends: *const u16, ends_len: usize, more: usize, out: *mut u16, out_len: usize) -> Reply;
    fn planner_redraw(stations: usize, steps: *const Step, steps_len: usize, more: usize, out: *mut u8, out_len: usize) -> Reply;
    fn planner_inspect(starts: *const u32, starts_len: usize, ends: *const u16, ends_len: usize, sheet: *const u8, sheet_len: usize, more: usize) -> Reply;
    fn planner_inspect_grid(stations: usize, bytes: *const u8, bytes_len: usize, sheet: *const u8, sheet_len: usize, more: usize) -> Reply;
    fn planner_tally(starts: *const u32, starts_len: usize, ends: *const u16, ends_len: usize, more: usize, list: *mut Level, list_len: usize) -> Reply;
    fn planner_choose(starts: *const u32, starts_len: usize, ends: *const u16, ends_len: usize, more: usize) -> Reply;
    fn planner_book(stations: usize, steps: *const Step, steps_len: usize, numbers: *mut u16, numbers_len: usize) -> Reply;
}

pub fn check(starts: &[u32], ends: &[u16]) -> Reply {
    unsafe { planner_check(starts.as_ptr(), starts.len(), ends.as_ptr(), ends.len()) }
}

pub fn draw(starts: &[u32], ends: &[u16], more: usize, out: &mut [u8]) -> Reply {
    unsafe { planner_draw(starts.as_ptr(), starts.len(), ends.as_ptr(), ends.len(), more, out.as_mut_ptr(), out.len()) }
}

pub fn draw_grid(stations: usize, bytes: &[u8], more: usize, out: &mut [u8]) -> Reply {
    unsafe { planner_draw_grid(stations, bytes.as_ptr(), bytes.len(), more, out.as_mut_ptr(), out.len()) }
}

pub fn numbers(starts: &[u32], ends: &[u16], more: usize, out: &mut [u16]) -> Reply {
    unsafe { planner_numbers(starts.as_ptr(), starts.len(), ends.as_ptr(), ends.len(), more, out.as_mut_ptr(), out.len()) }
}

pub fn redraw(stations: usize, steps: &[Step], more: usize, out: &mut [u8]) -> Reply {
    unsafe { planner_redraw(stations, steps.as_ptr(), steps.len(), more, out.as_mut_ptr(), out.len()) }
}

pub fn inspect(starts: &[u32], ends: &[u16], sheet: &[u8], more: usize) -> Reply {
    unsafe { planner_inspect(starts.as_ptr(), starts.len(), ends.as_ptr(), ends.len(), sheet.as_ptr(), sheet.len(), more) }
}

pub fn inspect_grid(stations: usize, bytes: &[u8], sheet: &[u8], more: usize) -> Reply {
    unsafe { planner_inspect_grid(stations, bytes.as_ptr(), bytes.len(), sheet.as_ptr(), sheet.len(), more) }
}

pub fn tally(starts: &[u32], ends: &[u16], more: usize, list: &mut [Level]) -> Reply {
    unsafe { planner_tally(starts.as_ptr(), starts.len(), ends.as_ptr(), ends.len(), more, list.as_mut_ptr(), list.len()) }
}

pub fn choose(starts: &[u32], ends: &[u16], more: usize) -> Reply {
    unsafe { planner_choose(starts.as_ptr(), starts.len(), ends.as_ptr(), ends.len(), more) }
}

pub fn book(stations: usize, steps: &[Step], numbers: &mut [u16]) -> Reply {
    unsafe { planner_book(stations, steps.as_ptr(), steps.len(), numbers.as_mut_ptr(), numbers.len()) }
}
