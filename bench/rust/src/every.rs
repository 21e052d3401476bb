// The yardstick of S-7: every row in full, c(i,j) at i * M + j, and every product added, j rising. Targets and counts are
// left alone.

use super::reader;

pub fn list_rows(
    file: &[u8],
    sums: &[u64; 64],
    rate: u64,
    _targets: &mut [u8],
    rates: &mut [u32],
    _counts: &mut [usize],
) {
    let states = reader::state_count(file);
    for i in 0..states {
        let row = reader::row_of(file, i);
        for j in 0..states {
            rates[i * states + j] = reader::entry_in(row, i, j, rate - sums[i]) as u32;
        }
    }
}

pub fn total(states: usize, _targets: &[u8], rates: &[u32], _counts: &[usize; 64], v: &[u64; 64], i: usize) -> u64 {
    let mut total = 0;
    for j in 0..states {
        total += rates[i * states + j] as u64 * v[j];
    }
    total
}
