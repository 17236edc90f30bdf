//! The proved pages of findings, as the static library has them.

mod ffi {
    extern "C" {
        pub fn pmjudge_pages(
            findings: *const u8,
            findings_length: usize,
            area: *mut u8,
            area_length: usize,
            answer: *mut [u32; 3],
        );
    }
}

/// Lays the findings out in the page area. The answer is the refusal's number or 0, the position,
/// and the length written.
pub fn lay_out(findings: &[u8], area: &mut [u8], answer: &mut [u32; 3]) {
    // SAFETY: the pointers and lengths are those of slices; none is null, and the borrows are apart.
    unsafe {
        ffi::pmjudge_pages(
            findings.as_ptr(),
            findings.len(),
            area.as_mut_ptr(),
            area.len(),
            answer,
        );
    }
}
