//! The proved calls, as Rust sees them: include/kuldrepso.h's declarations, and safe functions over them.

/// An answer from here on is this and the number of a refusal.
const REFUSED: u64 = 1_000_000;

/// What `remainders` answers of a file without a refusal.
pub const GIVEN: u64 = 0;
pub const NONE: u64 = 1;

extern "C" {
    fn kuldrepso_calculate(
        file: *const u8,
        file_length: usize,
        cells: *mut u64,
        cell_count: usize,
        row_means: *mut u64,
    ) -> u64;
    fn kuldrepso_series(
        file: *const u8,
        file_length: usize,
        times: *const u32,
        time_count: usize,
        levels: *mut u64,
        level_count: usize,
        cells: *mut u64,
        cell_count: usize,
        row_means: *mut u64,
    ) -> u64;
    fn kuldrepso_remainders(
        file: *const u8,
        file_length: usize,
        state: u64,
        n: u64,
        r: u64,
        mean: *mut u64,
        share: *mut u64,
        mix: *mut u64,
    ) -> u64;
    fn kuldrepso_to_version_2(file: *const u8, file_length: usize, out: *mut u8, out_length: usize) -> u64;
    fn kuldrepso_to_version_1(file: *const u8, file_length: usize, out: *mut u8, out_length: usize) -> u64;
    fn kuldrepso_practice(states: u64, highest: u64, seed: u32, out: *mut u8, out_length: usize) -> u64;
}

// SAFETY of every call: it asks nothing of the elements of a slice or of their count, nor of a number. A Rust slice's
// pointer is never null and holds as many elements as it says, and a reference's holds one; those to write to are
// borrowed for writing, so they overlap no other.

/// Judges `file`; the level where it is accepted, with its block in the cells and the number of row means that the run
/// took in `row_means`, or the row that stops it.
pub fn calculate(file: &[u8], cells: &mut [u64], row_means: &mut u64) -> Result<u64, u8> {
    accepted(unsafe { kuldrepso_calculate(file.as_ptr(), file.len(), cells.as_mut_ptr(), cells.len(), row_means) })
}

/// Judges `file` with a list of times; the number of times where both are accepted, with the levels and the blocks in
/// their cells and the number of row means that the run took in `row_means`, or the row that stops them.
pub fn series(
    file: &[u8],
    times: &[u32],
    levels: &mut [u64],
    cells: &mut [u64],
    row_means: &mut u64,
) -> Result<u64, u8> {
    accepted(unsafe {
        kuldrepso_series(
            file.as_ptr(),
            file.len(),
            times.as_ptr(),
            times.len(),
            levels.as_mut_ptr(),
            levels.len(),
            cells.as_mut_ptr(),
            cells.len(),
            row_means,
        )
    })
}

/// Judges `file`; where it is accepted GIVEN, with the remainders of V, W and U for the state, n and r in the three
/// numbers, or NONE; or the row that stops it.
pub fn remainders(
    file: &[u8],
    [state, n, r]: [u64; 3],
    mean: &mut u64,
    share: &mut u64,
    mix: &mut u64,
) -> Result<u64, u8> {
    accepted(unsafe { kuldrepso_remainders(file.as_ptr(), file.len(), state, n, r, mean, share, mix) })
}

/// Judges a version 1 file; the count of bytes where it is accepted, with the version 2 file in `out`, or the row that
/// stops it.
#[allow(dead_code)] // not every program that uses this file calls it
pub fn to_version_2(file: &[u8], out: &mut [u8]) -> Result<u64, u8> {
    accepted(unsafe { kuldrepso_to_version_2(file.as_ptr(), file.len(), out.as_mut_ptr(), out.len()) })
}

/// Judges a version 2 file; the count of bytes where it is accepted, with the version 1 file in `out`, or the row that
/// stops it.
#[allow(dead_code)] // not every program that uses this file calls it
pub fn to_version_1(file: &[u8], out: &mut [u8]) -> Result<u64, u8> {
    accepted(unsafe { kuldrepso_to_version_1(file.as_ptr(), file.len(), out.as_mut_ptr(), out.len()) })
}

/// Judges M and R; the count of bytes where they are accepted, with the practice file of the seed number in `out`, or the
/// row that stops them.
#[allow(dead_code)] // not every program that uses this file calls it
pub fn practice(states: u64, highest: u64, seed: u32, out: &mut [u8]) -> Result<u64, u8> {
    accepted(unsafe { kuldrepso_practice(states, highest, seed, out.as_mut_ptr(), out.len()) })
}

/// An answer, or the row that it refuses by.
fn accepted(answer: u64) -> Result<u64, u8> {
    match answer.checked_sub(REFUSED) {
        None => Ok(answer),
        Some(row) => Err(u8::try_from(row).expect("a refusal has a number of one byte")),
    }
}
