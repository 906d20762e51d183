//! Times of runs: processor time, as it is steadier than the clock on a busy machine.

use std::time::Duration;

/// The kernel's record of used resources, as 64-bit Linux lays it out.
#[repr(C)]
#[derive(Default)]
struct Usage {
    user: [i64; 2],
    system: [i64; 2],
    rest: [i64; 14],
}

const SELF: i32 = 0;
const CHILDREN: i32 = -1;

extern "C" {
    fn getrusage(who: i32, usage: *mut Usage) -> i32;
}

/// User and system time of this process.
pub fn of_self() -> Duration {
    used(SELF)
}

/// User and system time of all children that have been waited for.
pub fn of_children() -> Duration {
    used(CHILDREN)
}

fn used(who: i32) -> Duration {
    let mut usage = Usage::default();
    // SAFETY: the pointer is to a whole record that is ours alone during the call.
    let result = unsafe { getrusage(who, &mut usage) };
    assert_eq!(result, 0, "getrusage");
    duration(usage.user) + duration(usage.system)
}

fn duration([seconds, micros]: [i64; 2]) -> Duration {
    Duration::from_secs(seconds as u64) + Duration::from_micros(micros as u64)
}

/// Puts the numbers in rising order and answers the middle one.
pub fn median(numbers: &mut [f64]) -> f64 {
    numbers.sort_by(f64::total_cmp);
    numbers[numbers.len() / 2]
}
