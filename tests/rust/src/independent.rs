//! The calculation of document 01 with the last division of document 02's S-1, for the file's own time or for a list of
//! times (S-3), the remainders of its divisions (S-4), files with a starting distribution and their converter (S-5),
//! practice files (S-6), and the number of row means (S-8), written from the papers alone, in plain u128 arithmetic.
//!
//! Nothing here was taken from the proved code: not its helper, not its order of work. Every product is
//! formed whole in 128 bits and divided once, so each line can be read against the paper's sentence.
//! The comparison (`main.rs`) and the measurement (`bench/`) both use this one file.

/// 10^12 ticks, the paper's ONE.
const ONE: u128 = 1_000_000_000_000;
/// 10^15, the weight w(m).
const PEAK: u128 = 1_000_000_000_000_000;
/// Millionths in a whole: X is counted in millionths of an expected jump, and a starting weight in millionths.
const MILLION: u128 = 1_000_000;
/// Billionths in a whole: the unit of the tolerance.
const BILLION: u128 = 1_000_000_000;

/// The versions that a call reads where it does not move a file.
const BOTH_VERSIONS: [u8; 2] = [1, 2];

/// A file and its times that no row of the table holds, taken apart.
struct Model {
    /// R, the highest moment.
    highest: usize,
    /// ε, in billionths.
    tolerance: u128,
    /// T, in whole hours: the file's own, or each of a list's.
    times: Vec<u128>,
    /// The starting weights, in millionths: one for each state in version 2, none in version 1.
    start: Vec<u128>,
    /// f, one reward rate for each state.
    rewards: Vec<u128>,
    /// c, row by row, the diagonal filled in: every row sums to E.
    chain: Vec<Vec<u128>>,
    /// E, the largest row sum, or 1.
    exit: u128,
    /// F, the largest reward rate.
    largest: u128,
}

impl Model {
    /// M, the number of states.
    fn states(&self) -> usize {
        self.rewards.len()
    }

    /// The cells that one time takes: M × R, and in version 2 R more.
    fn block(&self) -> usize {
        let figures = if self.start.is_empty() { self.states() } else { self.states() + 1 };
        figures * self.highest
    }
}

/// The unsigned big-endian number in `width` bytes from `at`.
fn number(file: &[u8], at: usize, width: usize) -> u128 {
    file[at..at + width].iter().fold(0, |sum, &byte| sum * 256 + u128::from(byte))
}

/// `count` numbers of 4 bytes from `at` on.
fn numbers(file: &[u8], at: usize, count: usize) -> Vec<u128> {
    (0..count).map(|k| number(file, at + 4 * k, 4)).collect()
}

/// A moment or a start figure, which is at most ONE, or a divisor or a remainder, in 64 bits.
fn narrow(number: u128) -> u64 {
    u64::try_from(number).expect("a number of at most 64 bits")
}

/// The table "What stops a file" but for row 13, row by row, with the rows that a list of times adds to it; the first row
/// that holds is returned. `versions` are those that the call reads. `list` is None where the file's own time is judged.
fn read(file: &[u8], versions: &[u8], list: Option<&[u32]>) -> Result<Model, u8> {
    // 1: fewer than 13 bytes
    if file.len() < 13 {
        return Err(1);
    }
    // 2: length differs from the bytes after it
    let length = number(file, 0, 2);
    if length != file.len() as u128 - 2 {
        return Err(2);
    }
    // 3: version is not one that the call reads
    let version = file[2];
    if !versions.contains(&version) {
        return Err(3);
    }
    // 4: M is 0 or above 64
    let states = usize::from(file[3]);
    if states == 0 || states > 64 {
        return Err(4);
    }
    // 5: R is 0 or above 8
    let highest = usize::from(file[4]);
    if highest == 0 || highest > 8 {
        return Err(5);
    }
    // 6: length is not 4 × M × M + 11, or in version 2 not 4 × M × M + 4 × M + 11
    let starting = if version == 2 { states } else { 0 };
    if length != (4 * states * states + 4 * starting + 11) as u128 {
        return Err(6);
    }
    // 7: ε is 0 or above 100,000,000
    let tolerance = number(file, 5, 4);
    if tolerance == 0 || tolerance > 100_000_000 {
        return Err(7);
    }
    // 8: T is 0, or the first listed time is
    let own = number(file, 9, 4);
    if own == 0 || list.is_some_and(|list| list.first() == Some(&0)) {
        return Err(8);
    }
    // 16: the starting weights of version 2 do not sum to 1,000,000
    let start = numbers(file, 13, starting);
    if version == 2 && start.iter().sum::<u128>() != MILLION {
        return Err(16);
    }
    // 9: a reward rate above 1,000,000
    let mut at = 13 + 4 * starting;
    let rewards = numbers(file, at, states);
    if rewards.iter().any(|&f| f > 1_000_000) {
        return Err(9);
    }
    // 10: all reward rates 0
    if rewards.iter().all(|&f| f == 0) {
        return Err(10);
    }
    // the rates from i to each other j, j rising, the diagonal left out (0 for now)
    at += 4 * states;
    let mut chain = vec![vec![0; states]; states];
    for i in 0..states {
        for j in 0..states {
            if j != i {
                chain[i][j] = number(file, at, 4);
                at += 4;
            }
        }
    }
    // 11: a row's rates sum above 10,000,000
    let sums: Vec<u128> = chain.iter().map(|row| row.iter().sum()).collect();
    if sums.iter().any(|&sum| sum > 10_000_000) {
        return Err(11);
    }
    // E: the largest row sum, or 1 where all row sums are 0
    let exit = match sums.iter().max() {
        Some(&largest) if largest > 0 => largest,
        _ => 1,
    };
    let times = match list {
        None => vec![own],
        Some(list) => {
            // 14: the list has 0 or more than 8 times
            if list.is_empty() || list.len() > 8 {
                return Err(14);
            }
            // 15: a time is not above the one before it
            if list.windows(2).any(|pair| pair[1] <= pair[0]) {
                return Err(15);
            }
            list.iter().map(|&time| u128::from(time)).collect()
        }
    };
    // 12: E × T above 256,000,000, for the last time
    if exit * times[times.len() - 1] > 256_000_000 {
        return Err(12);
    }
    // c(i,i) is E less row i's sum
    for i in 0..states {
        chain[i][i] = exit - sums[i];
    }
    let largest = *rewards.iter().max().expect("at least one state");
    Ok(Model { highest, tolerance, times, start, rewards, chain, exit, largest })
}

/// 13: fewer level cells than times, or fewer answer cells than a block for each time.
fn enough(model: &Model, levels: usize, cells: usize) -> Result<(), u8> {
    if levels < model.times.len() || cells < model.times.len() * model.block() {
        return Err(13);
    }
    Ok(())
}

/// The weights w(0) .. w(N) for one time: the last of them is that of the level N.
fn weigh(model: &Model, time: u128) -> Vec<u128> {
    // X = E × T; m is q = X / 1,000,000 rounded down
    let x = model.exit * time;
    let m = x / MILLION;
    // leftward from w(m) = 10^15: w(n−1) = w(n) × n × 1,000,000 over X
    let mut weights = vec![PEAK; m as usize + 1];
    for n in (1..=m as usize).rev() {
        weights[n - 1] = weights[n] * n as u128 * MILLION / x;
    }
    // S(m), then rightward until the level
    let mut sum: u128 = weights.iter().sum();
    let mut n = m;
    loop {
        let weight = weights[n as usize];
        if n * MILLION >= x {
            // t = 1 + (w(n) + n − m) × X over ((n+1) × 1,000,000 − X)
            let t = 1 + (weight + n - m) * x / ((n + 1) * MILLION - x);
            if t <= sum * model.tolerance / BILLION {
                return weights;
            }
        }
        // w(n+1) = w(n) × X over ((n+1) × 1,000,000)
        let next = weight * x / ((n + 1) * MILLION);
        weights.push(next);
        sum += next;
        n += 1;
        assert!(n <= 1_024, "the paper promises a level of at most 1,024");
    }
}

/// The level N for one time.
fn level(model: &Model, time: u128) -> u64 {
    weigh(model, time).len() as u64 - 1
}

/// A quotient, down, and what the division leaves.
struct Division {
    quotient: u128,
    remainder: u128,
}

fn divide(dividend: u128, divisor: u128) -> Division {
    Division { quotient: dividend / divisor, remainder: dividend % divisor }
}

/// The divisions of V, of W and of U(n,r) at i. `before` is U(n−1,r), and `lower` is U(n,r−1).
fn divisions(model: &Model, i: usize, n: usize, r: usize, before: &[u128], lower: &[u128]) -> [Division; 3] {
    // V: the sum over j of c(i,j) × U(n−1,r) at j, over E
    let v = divide(model.chain[i].iter().zip(before).map(|(c, u)| c * u).sum(), model.exit);
    // W: f(i) × U(n,r−1) at i, over F
    let w = divide(model.rewards[i] * lower[i], model.largest);
    // U(n,r) at i: (n × V + r × W) over (n + r)
    let u = divide(n as u128 * v.quotient + r as u128 * w.quotient, (n + r) as u128);
    [v, w, u]
}

/// U(0,0) to U(0,R): U(0,0) is ONE everywhere, and U(0,r) at i is f(i) × U(0,r−1) at i, over F.
fn first_vectors(model: &Model) -> Vec<Vec<u128>> {
    let mut vectors = vec![vec![ONE; model.states()]];
    for r in 1..=model.highest {
        let vector = (0..model.states()).map(|i| model.rewards[i] * vectors[r - 1][i] / model.largest).collect();
        vectors.push(vector);
    }
    vectors
}

/// U(n,0) to U(n,R), where `before` is U(n−1,0) to U(n−1,R); U(n,0) is ONE everywhere. Each row mean V adds one to
/// `row_means`.
fn next_vectors(model: &Model, n: usize, before: &[Vec<u128>], row_means: &mut u64) -> Vec<Vec<u128>> {
    let mut vectors = vec![vec![ONE; model.states()]];
    for r in 1..=model.highest {
        let at = |i| {
            let [_, _, u] = divisions(model, i, n, r, &before[r], &vectors[r - 1]);
            *row_means += 1;
            u.quotient
        };
        let vector = (0..model.states()).map(at).collect();
        vectors.push(vector);
    }
    vectors
}

/// A × 10^12 over S(N), rounded to the nearest tick, a half going up: half of S(N) is added before the division, and
/// all is doubled so that this half is a whole number.
fn last_division(a: u128, s: u128) -> u128 {
    (2 * a * ONE + s) / (2 * s)
}

/// Fills `levels[k]` with the level of time k, and the k-th block of `cells` with its moments: moment r of state i in
/// cell (i − 1) × R + (r − 1) of the block, states counted from 1; in version 2 the start figures follow. Returns the
/// number of row means that it took: the vectors go once to the largest level, for all times.
fn work_out(model: &Model, levels: &mut [u64], cells: &mut [u64]) -> u64 {
    let states = model.states();
    let weights: Vec<Vec<u128>> = model.times.iter().map(|&time| weigh(model, time)).collect();
    let terms = weights.iter().map(Vec::len).max().expect("at least one time");

    // u[r][i] is U(n,r) at i
    let mut u = first_vectors(model);
    let mut row_means = 0;
    // a[k][r][i] is time k's A, the sum over n of (w(n) × U(n,r) at i over 10^12)
    let mut a = vec![vec![vec![0; states]; model.highest + 1]; model.times.len()];
    for n in 0..terms {
        if n > 0 {
            u = next_vectors(model, n, &u, &mut row_means);
        }
        for (a, weights) in a.iter_mut().zip(&weights) {
            // past its own level a time takes no term
            if n < weights.len() {
                for r in 1..=model.highest {
                    for i in 0..states {
                        a[r][i] += weights[n] * u[r][i] / ONE;
                    }
                }
            }
        }
    }
    for (k, block) in cells.chunks_mut(model.block()).take(model.times.len()).enumerate() {
        levels[k] = weights[k].len() as u64 - 1;
        // The moment: the final quotient alone is rounded to the nearest.
        let total: u128 = weights[k].iter().sum();
        for i in 0..states {
            for r in 1..=model.highest {
                let moment = last_division(a[k][r][i], total);
                block[i * model.highest + (r - 1)] = narrow(moment);
            }
        }
        if !model.start.is_empty() {
            let (moments, figures) = block.split_at_mut(states * model.highest);
            fill_start_figures(model, moments, figures);
        }
    }
    row_means
}

/// For each r the sum over the states of weight times moment, over 1,000,000, down.
fn fill_start_figures(model: &Model, moments: &[u64], figures: &mut [u64]) {
    for (r, figure) in figures.iter_mut().enumerate() {
        let sum: u128 =
            model.start.iter().zip(moments.chunks(model.highest)).map(|(weight, of)| weight * u128::from(of[r])).sum();
        *figure = narrow(sum / MILLION);
    }
}

/// Judges `file`, and where no row of the table holds fills `cells[(i − 1) × R + (r − 1)]` with the moments,
/// states counted from 1, and those after them in version 2 with the start figures, puts the number of row means to
/// `row_means`, and returns the level N. Otherwise returns the row, and leaves the cells and the number alone.
pub fn calculate(file: &[u8], cells: &mut [u64], row_means: &mut u64) -> Result<u64, u8> {
    let mut levels = [0];
    let model = read(file, &BOTH_VERSIONS, None)?;
    enough(&model, levels.len(), cells.len())?;
    *row_means = work_out(&model, &mut levels, cells);
    Ok(levels[0])
}

/// Judges `file` together with the list `times`, and where no row of the table holds fills, for each time in the list's
/// order, a level and a block of cells, puts the number of row means to `row_means`, and returns the number of times.
/// Otherwise returns the row, and leaves the levels, the cells and the number alone.
#[allow(dead_code)] // not every program that uses this file calls it
pub fn series(
    file: &[u8],
    times: &[u32],
    levels: &mut [u64],
    cells: &mut [u64],
    row_means: &mut u64,
) -> Result<u64, u8> {
    let model = read(file, &BOTH_VERSIONS, Some(times))?;
    enough(&model, levels.len(), cells.len())?;
    *row_means = work_out(&model, levels, cells);
    Ok(times.len() as u64)
}

/// What a file is measured by that no row up to 12 stops.
#[allow(dead_code)] // not every program that uses this file reads it
pub struct Sizes {
    /// M, N and R: the last state, the level at the file's own time, and the highest moment.
    pub limits: [u64; 3],
    /// E and F.
    pub divisors: [u64; 2],
}

impl Sizes {
    fn of(model: &Model) -> Sizes {
        Sizes {
            limits: [model.states() as u64, level(model, model.times[0]), model.highest as u64],
            divisors: [model.exit, model.largest].map(narrow),
        }
    }
}

/// The sizes of a file; or the row up to 12 that stops it.
#[allow(dead_code)] // not every program that uses this file calls it
pub fn sizes(file: &[u8]) -> Result<Sizes, u8> {
    Ok(Sizes::of(&read(file, &BOTH_VERSIONS, None)?))
}

/// Judges `file` by the rows up to 12, and where none holds writes the remainders of V, of W and of U(n,r) at the state,
/// counted from 1, and returns 0. Where the state, n or r is outside its limits it writes nothing and returns 1.
/// Otherwise it returns the row, and writes nothing.
#[allow(dead_code)] // not every program that uses this file calls it
pub fn remainders(
    file: &[u8],
    [state, n, r]: [u64; 3],
    mean: &mut u64,
    share: &mut u64,
    mix: &mut u64,
) -> Result<u64, u8> {
    let model = read(file, &BOTH_VERSIONS, None)?;
    let outside = |(number, limit)| number < 1 || number > limit;
    if [state, n, r].into_iter().zip(Sizes::of(&model).limits).any(outside) {
        return Ok(1);
    }
    let (i, n, r) = (state as usize - 1, n as usize, r as usize);
    let before = (1..n).fold(first_vectors(&model), |vectors, k| next_vectors(&model, k, &vectors, &mut 0));
    let vectors = next_vectors(&model, n, &before, &mut 0);
    let [v, w, u] = divisions(&model, i, n, r, &before[r], &vectors[r - 1]);
    *mean = narrow(v.remainder);
    *share = narrow(w.remainder);
    *mix = narrow(u.remainder);
    Ok(0)
}

/// Writes to `out` the file with these bytes after its length. Returns the count of its bytes; or 13, and writes nothing,
/// where `out` is too short for them.
fn write(after: &[u8], out: &mut [u8]) -> Result<u64, u8> {
    // the length, the count of all bytes after it
    let mut file = (after.len() as u16).to_be_bytes().to_vec();
    file.extend(after);
    // 13: the output slice is too short
    if out.len() < file.len() {
        return Err(13);
    }
    out[..file.len()].copy_from_slice(&file);
    Ok(file.len() as u64)
}

/// Writes to `out` the moved file: the version, M to T as in `file`, the starting weights, and `rest`, the bytes from the
/// rewards on.
fn write_moved(file: &[u8], version: u8, start: &[u32], rest: &[u8], out: &mut [u8]) -> Result<u64, u8> {
    let mut after = vec![version];
    after.extend(&file[3..13]);
    after.extend(start.iter().flat_map(|weight| weight.to_be_bytes()));
    after.extend(rest);
    write(&after, out)
}

/// Judges a version 1 file, and where no row of the table holds writes it in version 2, with all weight on state 1, and
/// returns the count of bytes. Otherwise returns the row, and writes nothing.
#[allow(dead_code)] // not every program that uses this file calls it
pub fn to_version_2(file: &[u8], out: &mut [u8]) -> Result<u64, u8> {
    let model = read(file, &[1], None)?;
    let mut start = vec![0; model.states()];
    start[0] = 1_000_000;
    write_moved(file, 2, &start, &file[13..], out)
}

/// Judges a version 2 file, and where no row of the table holds writes it in version 1, without its weights, and returns
/// the count of bytes. Otherwise returns the row, and writes nothing.
#[allow(dead_code)] // not every program that uses this file calls it
pub fn to_version_1(file: &[u8], out: &mut [u8]) -> Result<u64, u8> {
    let model = read(file, &[2], None)?;
    // 17: weight on a state other than 1
    if model.start[1..].iter().any(|&weight| weight > 0) {
        return Err(17);
    }
    write_moved(file, 1, &[], &file[13 + 4 * model.states()..], out)
}

/// The draws of a seed number's stream, without end.
fn draws(seed: u32) -> impl Iterator<Item = u32> {
    // the seed number is the first "previous"
    let mut previous = u128::from(seed);
    std::iter::repeat_with(move || {
        // next = previous × 1664525 + 1013904223, cut to 32 bits
        previous = (previous * 1_664_525 + 1_013_904_223) % (1 << 32);
        // a draw is the upper 16 bits after the step
        (previous / (1 << 16)) as u32
    })
}

/// Judges M and R, and where no row of the table holds writes the practice file of the seed number and returns the count
/// of bytes. Otherwise returns the row, and writes nothing.
#[allow(dead_code)] // not every program that uses this file calls it
pub fn practice(states: u64, highest: u64, seed: u32, out: &mut [u8]) -> Result<u64, u8> {
    // 4: M is 0 or above 64
    if states == 0 || states > 64 {
        return Err(4);
    }
    // 5: R is 0 or above 8
    if highest == 0 || highest > 8 {
        return Err(5);
    }
    let states = states as usize;
    let rates = states * (states - 1);
    let drawn: Vec<u32> = draws(seed).take(1 + states + rates).collect();
    // tolerance 10,000, and time 1 plus the first draw over 4,096, down
    let mut words = vec![10_000, 1 + drawn[0] / 4_096];
    // each reward and each rate, the first reward plus 1
    words.extend(&drawn[1..]);
    words[2] += 1;
    // version 1, M and R before them
    let mut after = vec![1, states as u8, highest as u8];
    after.extend(words.iter().flat_map(|word| word.to_be_bytes()));
    write(&after, out)
}
