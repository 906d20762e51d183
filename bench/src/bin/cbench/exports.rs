//! The functions of `include/yard.h`.

/// What stands at a place.
pub const ENTRY: u32 = 0;
pub const OVER: u32 = 1;

/// One decision, as the header lays it out.
#[repr(C)]
#[derive(Clone, Copy, Debug, Default, PartialEq, Eq)]
pub struct Entry {
    pub kind: u32,
    pub question: u32,
    pub task: u64,
    pub record: u64,
    pub next: u64,
    pub group: u16,
    pub count: u16,
    pub clauses: [u16; 8],
}

extern "C" {
    fn yard_compare(
        first: *const u8,
        first_len: usize,
        second: *const u8,
        second_len: usize,
    ) -> u32;
    fn yard_read_entry(docket: *const u8, len: usize, place: u64, out: *mut Entry) -> u32;
}

pub fn compare(first: &[u8], second: &[u8]) -> u32 {
    // SAFETY: both pointers come with the length of their slice, and neither is kept.
    unsafe { yard_compare(first.as_ptr(), first.len(), second.as_ptr(), second.len()) }
}

pub fn read(docket: &[u8], place: u64, out: &mut Entry) -> u32 {
    // SAFETY: the pointer comes with the length of its slice, and `out` is a whole entry of ours.
    unsafe { yard_read_entry(docket.as_ptr(), docket.len(), place, out) }
}
