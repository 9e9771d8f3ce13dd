//! A safe wrapper of the bench's call for Rust hosts: link with `libhost.a`.

extern "C" {
    fn queue_bench_play(file: *const u8, file_length: usize, area: *mut u8, area_length: usize) -> i64;
}

/// Long enough for the text of every file.
pub const AREA_LENGTH: usize = 65_536;

/// Plays a run file into an area and gives the text that stands at its start: the report, or the line
/// `refused LAYER NUMBER PLACE`. None where the area has no room for either; the area is zero then.
pub fn play<'a>(file: &[u8], area: &'a mut [u8]) -> Option<&'a [u8]> {
    // Slices are never null, and a shared and a mutable one never overlap.
    let answer = unsafe { queue_bench_play(file.as_ptr(), file.len(), area.as_mut_ptr(), area.len()) };
    let length = usize::try_from(answer).ok()?;
    area.get(..length)
}

/// The text of a run file, in memory of its own.
pub fn report(file: &[u8]) -> Vec<u8> {
    let mut area = vec![0; AREA_LENGTH];
    play(file, &mut area).expect("the area is long enough for every text").to_vec()
}
