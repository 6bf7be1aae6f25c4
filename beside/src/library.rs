//! The planner's calls for C, as the static library `planner_c` has them. The whole comparison has no other unsafe code.
#![allow(unsafe_code)]

#[repr(C)]
#[derive(Clone, Copy, Debug, PartialEq, Eq)]
pub struct Reply {
    pub refusal: u32,
    pub value: usize,
}

#[repr(C)]
#[derive(Clone, Copy, Debug, PartialEq, Eq)]
pub struct Level {
    pub members: u32,
    pub inside: u32,
    pub boundary: u32,
}

/// A link to be set or taken away.
#[repr(C)]
#[derive(Clone, Copy, Debug, PartialEq, Eq)]
pub struct Step {
    pub sets: bool,
    pub a: u16,
    pub b: u16,
}

#[derive(Clone, Copy)]
pub struct Listing<'a> {
    pub starts: &'a [u32],
    pub ends: &'a [u16],
}

#[derive(Clone, Copy)]
pub struct Grid<'a> {
    pub stations: usize,
    pub bytes: &'a [u8],
}

// A slice is given as a pointer and a length.
unsafe extern "C" {
    fn planner_check(starts: *const u32, starts_len: usize, ends: *const u16, ends_len: usize) -> Reply;
    fn planner_draw(starts: *const u32, starts_len: usize, ends: *const u16, ends_len: usize, more: usize, out: *mut u8, out_len: usize) -> Reply;
    fn planner_draw_grid(stations: usize, bytes: *const u8, bytes_len: usize, more: usize, out: *mut u8, out_len: usize) -> Reply;
    fn planner_redraw(stations: usize, steps: *const Step, steps_len: usize, more: usize, out: *mut u8, out_len: usize) -> Reply;
    fn planner_numbers(starts: *const u32, starts_len: usize, ends: *const u16, ends_len: usize, more: usize, out: *mut u16, out_len: usize)
        -> Reply;
    fn planner_inspect(
        starts: *const u32,
        starts_len: usize,
        ends: *const u16,
        ends_len: usize,
        sheet: *const u8,
        sheet_len: usize,
        more: usize,
    ) -> Reply;
    fn planner_inspect_grid(stations: usize, bytes: *const u8, bytes_len: usize, sheet: *const u8, sheet_len: usize, more: usize) -> Reply;
    fn planner_tally(
        starts: *const u32,
        starts_len: usize,
        ends: *const u16,
        ends_len: usize,
        more: usize,
        list: *mut Level,
        list_len: usize,
    ) -> Reply;
    fn planner_choose(starts: *const u32, starts_len: usize, ends: *const u16, ends_len: usize, more: usize) -> Reply;
    fn planner_book(stations: usize, steps: *const Step, steps_len: usize, numbers: *mut u16, numbers_len: usize) -> Reply;
}

impl Listing<'_> {
    pub fn check(self) -> Reply {
        let Listing { starts, ends } = self;
        unsafe { planner_check(starts.as_ptr(), starts.len(), ends.as_ptr(), ends.len()) }
    }

    pub fn draw(self, out: &mut [u8]) -> Reply {
        let Listing { starts, ends } = self;
        unsafe { planner_draw(starts.as_ptr(), starts.len(), ends.as_ptr(), ends.len(), 0, out.as_mut_ptr(), out.len()) }
    }

    pub fn numbers(self, out: &mut [u16]) -> Reply {
        let Listing { starts, ends } = self;
        unsafe { planner_numbers(starts.as_ptr(), starts.len(), ends.as_ptr(), ends.len(), 0, out.as_mut_ptr(), out.len()) }
    }

    pub fn inspect(self, sheet: &[u8]) -> Reply {
        let Listing { starts, ends } = self;
        unsafe { planner_inspect(starts.as_ptr(), starts.len(), ends.as_ptr(), ends.len(), sheet.as_ptr(), sheet.len(), 0) }
    }

    pub fn tally(self, list: &mut [Level]) -> Reply {
        let Listing { starts, ends } = self;
        unsafe { planner_tally(starts.as_ptr(), starts.len(), ends.as_ptr(), ends.len(), 0, list.as_mut_ptr(), list.len()) }
    }

    pub fn choose(self) -> Reply {
        let Listing { starts, ends } = self;
        unsafe { planner_choose(starts.as_ptr(), starts.len(), ends.as_ptr(), ends.len(), 0) }
    }
}

impl Grid<'_> {
    pub fn draw(self, out: &mut [u8]) -> Reply {
        unsafe { planner_draw_grid(self.stations, self.bytes.as_ptr(), self.bytes.len(), 0, out.as_mut_ptr(), out.len()) }
    }

    pub fn inspect(self, sheet: &[u8]) -> Reply {
        unsafe { planner_inspect_grid(self.stations, self.bytes.as_ptr(), self.bytes.len(), sheet.as_ptr(), sheet.len(), 0) }
    }
}

/// Draws a new book, for so many stations, after some steps.
pub fn redraw(stations: usize, steps: &[Step], out: &mut [u8]) -> Reply {
    unsafe { planner_redraw(stations, steps.as_ptr(), steps.len(), 0, out.as_mut_ptr(), out.len()) }
}

/// Its numbers.
pub fn book(stations: usize, steps: &[Step], numbers: &mut [u16]) -> Reply {
    unsafe { planner_book(stations, steps.as_ptr(), steps.len(), numbers.as_mut_ptr(), numbers.len()) }
}
