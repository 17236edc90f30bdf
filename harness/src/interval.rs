//! The proved persist interval of a byte after a trace, as the static library has it.

/// How many numbers an answer has: the refusal's number or 0, and the record's; the state, 0 for none,
/// 1 for open and 2 for closed; the opening and the closing epoch; the events of the last store, of the
/// first write-back after it and of the first fence after that; and their sites. What an interval lacks
/// is 0.
pub const COUNT: usize = 11;

mod ffi {
    use super::COUNT;

    extern "C" {
        pub fn pmjudge_interval(
            trace: *const u8,
            trace_length: usize,
            byte: u16,
            answer: *mut [u32; COUNT],
        );
    }
}

/// The persist interval of a byte after a trace.
pub fn interval(trace: &[u8], byte: u16, answer: &mut [u32; COUNT]) {
    // SAFETY: the pointer and the length are those of a slice; none is null, and the borrows are apart.
    unsafe {
        ffi::pmjudge_interval(trace.as_ptr(), trace.len(), byte, answer);
    }
}
