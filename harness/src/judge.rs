//! The proved judge, as the static library has it.

/// What a judge answers to a trace.
#[derive(Clone, Copy, Debug, PartialEq, Eq)]
pub enum Answer {
    /// The refusal's number, and the record's from 1, or 0.
    Refused { number: u32, record: u32 },
    /// `findings` counts those other than none.
    Accepted {
        events: u32,
        fences: u32,
        findings: u32,
    },
}

mod ffi {
    extern "C" {
        pub fn pmjudge_judge(
            trace: *const u8,
            trace_length: usize,
            area: *mut u8,
            area_length: usize,
            answer: *mut [u32; 5],
        );
    }
}

/// Judges a trace into a findings area.
pub fn judge(trace: &[u8], area: &mut [u8]) -> Answer {
    let mut answer = [0; 5];
    // SAFETY: the pointers and lengths are those of slices; none is null, and the borrows are apart.
    unsafe {
        ffi::pmjudge_judge(
            trace.as_ptr(),
            trace.len(),
            area.as_mut_ptr(),
            area.len(),
            &mut answer,
        );
    }
    match answer {
        [0, 0, events, fences, findings] => Answer::Accepted {
            events,
            fences,
            findings,
        },
        [number, record, 0, 0, 0] => Answer::Refused { number, record },
        _ => panic!("the judge answered {answer:?}"),
    }
}
