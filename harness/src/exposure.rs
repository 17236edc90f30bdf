//! The proved exposure of a trace, as the static library has it.

mod ffi {
    extern "C" {
        pub fn pmjudge_exposure(trace: *const u8, trace_length: usize, answer: *mut [u32; 5]);
    }
}

/// The mean exposure of a trace. The answer is the refusal's number or 0, the record's number, and
/// quotient, remainder and divisor.
pub fn exposure(trace: &[u8], answer: &mut [u32; 5]) {
    // SAFETY: the pointer and the length are those of a slice; none is null, and the borrows are apart.
    unsafe {
        ffi::pmjudge_exposure(trace.as_ptr(), trace.len(), answer);
    }
}
