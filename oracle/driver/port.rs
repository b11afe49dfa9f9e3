//! The port, where it is linked (`--cfg port`), called as its build host calls it.

extern "C" {
    fn lower(record: *const u8, record_length: usize, output: *mut u8, output_length: usize) -> u64;
    fn lower_all(record: *const u8, record_length: usize, output: *mut u8, output_length: usize) -> u64;
}

/// The answer's number and length; `output` holds the lines.
pub fn call(record: &[u8], output: &mut [u8]) -> (u64, usize) {
    // SAFETY: both slices are valid for their lengths, and only the second is written.
    parts(unsafe { lower(record.as_ptr(), record.len(), output.as_mut_ptr(), output.len()) })
}

/// The same of all targets of the record; `output` holds the sections.
pub fn call_all(record: &[u8], output: &mut [u8]) -> (u64, usize) {
    // SAFETY: as for `lower`.
    parts(unsafe { lower_all(record.as_ptr(), record.len(), output.as_mut_ptr(), output.len()) })
}

fn parts(answer: u64) -> (u64, usize) {
    (answer >> 32, (answer & 0xffff_ffff) as usize)
}
