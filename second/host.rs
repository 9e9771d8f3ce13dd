//! The proved bench's call, as Rust sees it.

extern "C" {
    fn queue_bench_play(file: *const u8, file_length: usize, area: *mut u8, area_length: usize) -> i64;
}

/// Plays the run file by the proved bench: the text stands at the start of the area, the rest of the area is zero,
/// and the answer is the text's length or -14.
pub fn play(file: &[u8], area: &mut [u8]) -> i64 {
    // Slices are never null and never longer than the call allows, and one that is borrowed mutably overlaps no other.
    unsafe { queue_bench_play(file.as_ptr(), file.len(), area.as_mut_ptr(), area.len()) }
}
