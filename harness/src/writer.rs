//! The proved writer of traces, as the static library has it.

use reference::trace::RECORD;

/// A call on a writer.
#[derive(Clone, Debug, PartialEq, Eq)]
pub enum Call {
    Start {
        preamble: Vec<u8>,
        lines: u16,
    },
    /// The bytes of a record. The second is 0: no argument of the call sets it.
    Event([u8; RECORD]),
    Close,
}

mod ffi {
    extern "C" {
        pub fn pmjudge_writer_start(
            area: *mut u8,
            area_length: usize,
            preamble: *const u8,
            preamble_length: usize,
            lines: u16,
            writer: *mut [u32; 4],
            answer: *mut [u32; 2],
        );
        pub fn pmjudge_writer_event(
            area: *mut u8,
            area_length: usize,
            writer: *mut [u32; 4],
            kind: u8,
            a: u16,
            a_length: u16,
            b: u16,
            b_length: u16,
            site: u16,
            answer: *mut [u32; 2],
        );
        pub fn pmjudge_writer_close(
            area: *mut u8,
            area_length: usize,
            writer: *const [u32; 4],
            answer: *mut [u32; 2],
        );
    }
}

/// Makes a call.
pub fn call(call: &Call, area: &mut [u8], writer: &mut [u32; 4], answer: &mut [u32; 2]) {
    let (start, length) = (area.as_mut_ptr(), area.len());
    // SAFETY: the pointers and lengths are those of slices and arrays; none is null, and the borrows
    // are apart.
    match call {
        Call::Start { preamble, lines } => unsafe {
            let (bytes, count) = (preamble.as_ptr(), preamble.len());
            ffi::pmjudge_writer_start(start, length, bytes, count, *lines, writer, answer);
        },
        Call::Event(record) => {
            let field = |at| u16::from_le_bytes([record[at], record[at + 1]]);
            let [a, a_length, b, b_length, site] = [2, 4, 6, 8, 10].map(field);
            let kind = record[0];
            unsafe {
                ffi::pmjudge_writer_event(
                    start, length, writer, kind, a, a_length, b, b_length, site, answer,
                );
            }
        }
        Call::Close => unsafe { ffi::pmjudge_writer_close(start, length, writer, answer) },
    }
}
