// The rows of c as crates/arrows lists them, and their sums as crates/vectors adds them: the states with a rate above 0 and
// the diagonal, highest first.

use super::reader;

fn is_added(i: usize, j: usize, entry: u64) -> bool {
    if j == i {
        return true;
    }
    entry > 0
}

fn list_row(file: &[u8], i: usize, diagonal: u64, targets: &mut [u8], rates: &mut [u32]) -> usize {
    let states = reader::state_count(file);
    let row = reader::row_of(file, i);
    let first = i * states;
    let mut k = 0;
    let mut j = states;
    while j > 0 {
        j -= 1;
        let entry = reader::entry_in(row, i, j, diagonal);
        if is_added(i, j, entry) {
            targets[first + k] = j as u8;
            rates[first + k] = entry as u32;
            k += 1;
        }
    }
    k
}

pub fn list_rows(
    file: &[u8],
    sums: &[u64; 64],
    rate: u64,
    targets: &mut [u8],
    rates: &mut [u32],
    counts: &mut [usize],
) {
    let states = reader::state_count(file);
    for i in 0..states {
        counts[i] = list_row(file, i, rate - sums[i], targets, rates);
    }
}

fn wide(x: u32) -> u64 {
    x as u64
}

pub fn total(states: usize, targets: &[u8], rates: &[u32], counts: &[usize; 64], v: &[u64; 64], i: usize) -> u64 {
    let first = i * states;
    let count = counts[i];
    let mut total = 0;
    for k in 0..count {
        let j = targets[first + k] as usize;
        total += wide(rates[first + k]) * v[j];
    }
    total
}
