// The proved code's algorithm in Rust, a module for each crate: definitions, reader, refusals, poisson, vectors, means,
// start and moments. The helper is the `muldiv` beside it: crates/muldiv's (muldiv.rs), or one in u128 (wide.rs). How the
// rows of c are listed and added up is in `rows` beside it: as crates/arrows and vectors do it (arrows.rs), or with every
// product (every.rs).
//
// For the measurement alone: what each function is, the crates say. The steps are theirs, in their order. A row's states and
// its entries stand in two arrays here, where the crates have one of arrows, and one loop goes over the cells of a block,
// where the crates have one over states and one over moments.

use definitions::{Outcome, Run, Series};

mod definitions {
    pub const ONE: u64 = 1_000_000_000_000;
    pub const ALL_WEIGHT: u64 = 1_000_000;
    pub const MOST_TIMES: usize = 8;

    pub enum Judgement {
        Accepted,
        Refused(u8),
    }

    pub struct Run {
        pub level: u64,
        pub means: u64,
    }

    pub enum Outcome {
        Solved(Run),
        Refused(u8),
    }

    pub enum Series {
        Solved(u64),
        Refused(u8),
    }

    pub struct Division {
        pub quotient: u64,
        pub remainder: u64,
    }

    #[derive(Clone, Copy)]
    pub struct Sizes {
        pub states: usize,
        pub highest: usize,
        pub block: usize,
        pub rate: u64,
        pub largest: u64,
    }
}

mod reader {
    use super::definitions::Sizes;

    const LENGTH_AT: usize = 0;
    const VERSION_AT: usize = 2;
    const STATES_AT: usize = 3;
    const HIGHEST_AT: usize = 4;
    const TOLERANCE_AT: usize = 5;
    const TIME_AT: usize = 9;
    pub const HEADER: usize = 13;
    const WEIGHTS_AT: usize = HEADER;

    fn byte(file: &[u8], at: usize) -> u64 {
        file[at] as u64
    }

    fn be(file: &[u8], at: usize, width: usize) -> u64 {
        let mut value: u64 = 0;
        for k in 0..width {
            value = value * 256 + byte(file, at + k);
        }
        value
    }

    pub fn length_field(file: &[u8]) -> u64 {
        be(file, LENGTH_AT, 2)
    }

    pub fn version(file: &[u8]) -> u64 {
        byte(file, VERSION_AT)
    }

    pub fn state_count(file: &[u8]) -> usize {
        byte(file, STATES_AT) as usize
    }

    pub fn highest_moment(file: &[u8]) -> usize {
        byte(file, HIGHEST_AT) as usize
    }

    pub fn tolerance(file: &[u8]) -> u64 {
        be(file, TOLERANCE_AT, 4)
    }

    pub fn time(file: &[u8]) -> u32 {
        be(file, TIME_AT, 4) as u32
    }

    pub fn distributions(file: &[u8]) -> usize {
        if version(file) == 2 {
            1
        } else {
            0
        }
    }

    pub fn block_size(file: &[u8]) -> usize {
        let rows = state_count(file) + distributions(file);
        rows * highest_moment(file)
    }

    fn rewards_at(file: &[u8]) -> usize {
        let weights = distributions(file) * state_count(file);
        WEIGHTS_AT + 4 * weights
    }

    fn numbers_at(file: &[u8], at: usize) -> [u64; 64] {
        let states = state_count(file);
        let mut numbers = [0u64; 64];
        for i in 0..states {
            numbers[i] = be(file, at + 4 * i, 4);
        }
        numbers
    }

    pub fn weights_of(file: &[u8]) -> [u64; 64] {
        numbers_at(file, WEIGHTS_AT)
    }

    pub fn weight_sum(file: &[u8]) -> u64 {
        let states = state_count(file);
        let mut total: u64 = 0;
        for i in 0..states {
            total += be(file, WEIGHTS_AT + 4 * i, 4);
        }
        total
    }

    pub fn rewards_of(file: &[u8]) -> [u64; 64] {
        numbers_at(file, rewards_at(file))
    }

    fn larger(a: u64, b: u64) -> u64 {
        if a < b {
            b
        } else {
            a
        }
    }

    fn largest_of(values: &[u64; 64], count: usize) -> u64 {
        let mut most: u64 = 0;
        for i in 0..count {
            most = larger(most, values[i]);
        }
        most
    }

    pub fn max_reward(file: &[u8]) -> u64 {
        let rewards = rewards_of(file);
        let states = state_count(file);
        largest_of(&rewards, states)
    }

    fn row_at(file: &[u8], i: usize) -> usize {
        let states = state_count(file);
        rewards_at(file) + 4 * states + 4 * (states - 1) * i
    }

    pub fn row_of(file: &[u8], i: usize) -> &[u8] {
        let at = row_at(file, i);
        &file[at..]
    }

    pub fn entry_in(row: &[u8], i: usize, j: usize, diagonal: u64) -> u64 {
        if j == i {
            return diagonal;
        }
        if j < i {
            return be(row, 4 * j, 4);
        }
        be(row, 4 * (j - 1), 4)
    }

    fn row_sum(file: &[u8], i: usize) -> u64 {
        let states = state_count(file);
        let row = row_of(file, i);
        let mut total: u64 = 0;
        for j in 0..states {
            total += entry_in(row, i, j, 0);
        }
        total
    }

    pub fn row_sums(file: &[u8]) -> [u64; 64] {
        let states = state_count(file);
        let mut sums = [0u64; 64];
        for i in 0..states {
            sums[i] = row_sum(file, i);
        }
        sums
    }

    pub fn uniform_rate(file: &[u8], sums: &[u64; 64]) -> u64 {
        larger(1, largest_of(sums, state_count(file)))
    }

    pub fn sizes_of(file: &[u8], sums: &[u64; 64]) -> Sizes {
        let states = state_count(file);
        let highest = highest_moment(file);
        let block = block_size(file);
        let rate = uniform_rate(file, sums);
        let largest = max_reward(file);
        Sizes { states, highest, block, rate, largest }
    }

    pub fn jump_millionths(rate: u64, time: u32) -> u64 {
        rate * time as u64
    }
}

mod refusals {
    use super::definitions::{Judgement, ALL_WEIGHT, MOST_TIMES};
    use super::reader;

    const MOST_STATES: u64 = 64;
    const MOST_MOMENTS: u64 = 8;
    const MOST_TOLERANCE: u64 = 100_000_000;
    const MOST_REWARD: u64 = 1_000_000;
    const MOST_ROW_SUM: u64 = 10_000_000;
    const MOST_JUMPS: u64 = 256_000_000;

    pub fn outside(low: u64, high: u64, x: u64) -> bool {
        x < low || x > high
    }

    fn judge_dimensions(states: u64, highest: u64) -> Judgement {
        if outside(1, MOST_STATES, states) {
            return Judgement::Refused(4);
        }
        if outside(1, MOST_MOMENTS, highest) {
            return Judgement::Refused(5);
        }
        Judgement::Accepted
    }

    fn fitting_length(file: &[u8]) -> u64 {
        let states = reader::state_count(file) as u64;
        let weights = reader::distributions(file) as u64 * states;
        4 * states * states + 4 * weights + 11
    }

    fn judge_framing(file: &[u8], low: u64, high: u64) -> Judgement {
        if file.len() < reader::HEADER {
            return Judgement::Refused(1);
        }
        let length = reader::length_field(file);
        if length != (file.len() - 2) as u64 {
            return Judgement::Refused(2);
        }
        if outside(low, high, reader::version(file)) {
            return Judgement::Refused(3);
        }
        let dimensions = judge_dimensions(
            reader::state_count(file) as u64,
            reader::highest_moment(file) as u64,
        );
        if let Judgement::Refused(k) = dimensions {
            return Judgement::Refused(k);
        }
        if length != fitting_length(file) {
            return Judgement::Refused(6);
        }
        Judgement::Accepted
    }

    pub enum Rated {
        Rate(u64),
        Refused(u8),
    }

    fn starts_at_zero(times: &[u32]) -> bool {
        if times.len() == 0 {
            return false;
        }
        times[0] == 0
    }

    fn without_time(file: &[u8], times: &[u32]) -> bool {
        if reader::time(file) == 0 {
            return true;
        }
        starts_at_zero(times)
    }

    fn misweighted(file: &[u8]) -> bool {
        if reader::distributions(file) == 0 {
            return false;
        }
        reader::weight_sum(file) != ALL_WEIGHT
    }

    fn judge_quantities(file: &[u8], times: &[u32]) -> Rated {
        if outside(1, MOST_TOLERANCE, reader::tolerance(file)) {
            return Rated::Refused(7);
        }
        if without_time(file, times) {
            return Rated::Refused(8);
        }
        if misweighted(file) {
            return Rated::Refused(16);
        }
        let most = reader::max_reward(file);
        if most > MOST_REWARD {
            return Rated::Refused(9);
        }
        if most == 0 {
            return Rated::Refused(10);
        }
        let sums = reader::row_sums(file);
        let rate = reader::uniform_rate(file, &sums);
        if rate > MOST_ROW_SUM {
            return Rated::Refused(11);
        }
        Rated::Rate(rate)
    }

    pub fn judge_model(file: &[u8], low: u64, high: u64, times: &[u32]) -> Rated {
        let framing = judge_framing(file, low, high);
        match framing {
            Judgement::Refused(k) => Rated::Refused(k),
            Judgement::Accepted => judge_quantities(file, times),
        }
    }

    fn judge_jumps(rate: u64, time: u32) -> Judgement {
        if reader::jump_millionths(rate, time) > MOST_JUMPS {
            return Judgement::Refused(12);
        }
        Judgement::Accepted
    }

    pub fn judge_file(file: &[u8], low: u64, high: u64) -> Judgement {
        let model = judge_model(file, low, high, &[]);
        match model {
            Rated::Refused(k) => Judgement::Refused(k),
            Rated::Rate(rate) => judge_jumps(rate, reader::time(file)),
        }
    }

    fn judge_room(file: &[u8], blocks: usize, cells: usize) -> Judgement {
        if cells < blocks * reader::block_size(file) {
            return Judgement::Refused(13);
        }
        Judgement::Accepted
    }

    pub fn judge(file: &[u8], cells: usize) -> Judgement {
        let alone = judge_file(file, 1, 2);
        match alone {
            Judgement::Refused(k) => Judgement::Refused(k),
            Judgement::Accepted => judge_room(file, 1, cells),
        }
    }

    fn falls(times: &[u32]) -> bool {
        for k in 1..times.len() {
            if times[k] <= times[k - 1] {
                return true;
            }
        }
        false
    }

    fn judge_times(file: &[u8], rate: u64, times: &[u32], levels: usize, cells: usize) -> Judgement {
        let count = times.len();
        if outside(1, MOST_TIMES as u64, count as u64) {
            return Judgement::Refused(14);
        }
        if falls(times) {
            return Judgement::Refused(15);
        }
        let jumps = judge_jumps(rate, times[count - 1]);
        if let Judgement::Refused(k) = jumps {
            return Judgement::Refused(k);
        }
        let room = judge_room(file, count, cells);
        if let Judgement::Refused(k) = room {
            return Judgement::Refused(k);
        }
        if levels < count {
            return Judgement::Refused(13);
        }
        Judgement::Accepted
    }

    pub fn judge_series(file: &[u8], times: &[u32], levels: usize, cells: usize) -> Judgement {
        let model = judge_model(file, 1, 2, times);
        match model {
            Rated::Refused(row) => Judgement::Refused(row),
            Rated::Rate(rate) => judge_times(file, rate, times, levels, cells),
        }
    }
}

mod poisson {
    use super::muldiv;

    const MILLION: u64 = 1_000_000;
    const GREATEST: u64 = 1_000_000_000_000_000;
    const BILLION: u64 = 1_000_000_000;
    pub const LEVELS: usize = 564;

    pub struct Truncation {
        pub level: u64,
        pub sum: u64,
    }

    pub fn truncate(x: u64, tolerance: u64, weights: &mut [u64]) -> Truncation {
        let mut sum = leftward(x, weights);
        let mut w = GREATEST;
        let mut n = mode_of(x);
        loop {
            let next = n + 1;
            if passes(w, sum, x, n, tolerance) {
                return Truncation { level: n, sum };
            }
            w = step_right(w, x, n);
            weights[next as usize] = w;
            sum += w;
            n = next;
        }
    }

    fn leftward(x: u64, weights: &mut [u64]) -> u64 {
        let mut n = mode_of(x) as usize;
        let mut w = GREATEST;
        let mut sum = GREATEST;
        weights[n] = GREATEST;
        while n > 0 {
            w = step_left(w, x, n as u64);
            n -= 1;
            weights[n] = w;
            sum += w;
        }
        sum
    }

    fn mode_of(x: u64) -> u64 {
        x / MILLION
    }

    fn step_right(w: u64, x: u64, n: u64) -> u64 {
        let next = muldiv::scaled(w, x, (n + 1) * MILLION);
        next.quotient
    }

    fn step_left(w: u64, x: u64, n: u64) -> u64 {
        let before = muldiv::scaled(w, n * MILLION, x);
        before.quotient
    }

    fn tail_bound(w: u64, x: u64, n: u64) -> u64 {
        let m = mode_of(x);
        let past = muldiv::scaled(w + n - m, x, (n + 1) * MILLION - x);
        1 + past.quotient
    }

    fn allowance(sum: u64, tolerance: u64) -> u64 {
        let allowed = muldiv::scaled(sum, tolerance, BILLION);
        allowed.quotient
    }

    fn passes(w: u64, sum: u64, x: u64, n: u64, tolerance: u64) -> bool {
        if n * MILLION < x {
            return false;
        }
        let t = tail_bound(w, x, n);
        t <= allowance(sum, tolerance)
    }
}

mod vectors {
    use super::definitions::{Division, Sizes, ONE};
    use super::{muldiv, rows};

    pub fn row_mean(
        sizes: Sizes,
        targets: &[u8],
        rates: &[u32],
        counts: &[usize; 64],
        v: &[u64; 64],
        i: usize,
    ) -> Division {
        let total = rows::total(sizes.states, targets, rates, counts, v, i);
        muldiv::divide(total, sizes.rate)
    }

    pub fn reward_share(reward: u64, x: u64, largest: u64) -> Division {
        muldiv::divide(reward * x, largest)
    }

    pub fn mix(n: u64, r: u64, v: u64, w: u64) -> Division {
        muldiv::divide(n * v + r * w, n + r)
    }

    pub fn step(
        sizes: Sizes,
        targets: &[u8],
        rates: &[u32],
        counts: &[usize; 64],
        rewards: &[u64; 64],
        n: u64,
        r: u64,
        before: [u64; 64],
        same: [u64; 64],
        taken: &mut u64,
    ) -> [u64; 64] {
        let states = sizes.states;
        let mut next = [0u64; 64];
        for i in 0..states {
            let v = row_mean(sizes, targets, rates, counts, &before, i);
            *taken += 1;
            let w = reward_share(rewards[i], same[i], sizes.largest);
            let u = mix(n, r, v.quotient, w.quotient);
            next[i] = u.quotient;
        }
        next
    }

    fn ones(states: usize) -> [u64; 64] {
        let mut next = [0u64; 64];
        for i in 0..states {
            next[i] = ONE;
        }
        next
    }

    fn shares(sizes: Sizes, rewards: &[u64; 64], same: [u64; 64]) -> [u64; 64] {
        let states = sizes.states;
        let mut next = [0u64; 64];
        for i in 0..states {
            let share = reward_share(rewards[i], same[i], sizes.largest);
            next[i] = share.quotient;
        }
        next
    }

    pub fn first_table(sizes: Sizes, rewards: &[u64; 64], table: &mut [[u64; 64]; 9]) {
        let highest = sizes.highest;
        table[0] = ones(sizes.states);
        for r in 1..highest + 1 {
            let same = table[r - 1];
            table[r] = shares(sizes, rewards, same);
        }
    }

    pub fn next_table(
        sizes: Sizes,
        targets: &[u8],
        rates: &[u32],
        counts: &[usize; 64],
        rewards: &[u64; 64],
        n: u64,
        table: &mut [[u64; 64]; 9],
        taken: &mut u64,
    ) {
        let highest = sizes.highest;
        for r in 1..highest + 1 {
            let before = table[r];
            let same = table[r - 1];
            table[r] = step(sizes, targets, rates, counts, rewards, n, r as u64, before, same, taken);
        }
    }
}

mod means {
    use super::definitions::{Sizes, MOST_TIMES, ONE};
    use super::{muldiv, poisson, vectors};

    fn clear(count: usize, cells: &mut [u64]) {
        for k in 0..count {
            cells[k] = 0;
        }
    }

    fn term(w: u64, u: u64) -> u64 {
        let ticks = muldiv::over_trillion(w, u);
        ticks.quotient
    }

    fn add_terms(sizes: Sizes, w: u64, table: &[[u64; 64]; 9], cells: &mut [u64]) {
        let highest = sizes.highest;
        let count = sizes.states * highest;
        let mut i = 0;
        let mut r = 1;
        for k in 0..count {
            cells[k] += term(w, table[r][i]);
            if r == highest {
                r = 1;
                i += 1;
            } else {
                r += 1;
            }
        }
    }

    fn add_up_to_level(
        sizes: Sizes,
        n: u64,
        level: u64,
        row: &[u64],
        table: &[[u64; 64]; 9],
        cells: &mut [u64],
    ) {
        if n > level {
            return;
        }
        let w = row[n as usize];
        if w == 0 {
            return;
        }
        add_terms(sizes, w, table, cells);
    }

    fn add_to_blocks(
        sizes: Sizes,
        n: u64,
        levels: &[u64],
        weights: &[u64],
        table: &[[u64; 64]; 9],
        cells: &mut [u64],
    ) {
        let block = sizes.block;
        let count = levels.len();
        for k in 0..count {
            let row = &weights[k * poisson::LEVELS..];
            add_up_to_level(sizes, n, levels[k], row, table, &mut cells[k * block..]);
        }
    }

    fn accumulate(
        sizes: Sizes,
        targets: &[u8],
        rates: &[u32],
        counts: &[usize; 64],
        rewards: &[u64; 64],
        levels: &[u64],
        largest: u64,
        weights: &[u64],
        cells: &mut [u64],
    ) -> u64 {
        let zeros = [0u64; 64];
        let mut table = [zeros; 9];
        vectors::first_table(sizes, rewards, &mut table);
        clear(levels.len() * sizes.block, cells);
        add_to_blocks(sizes, 0, levels, weights, &table, cells);
        let mut taken: u64 = 0;
        let mut n: u64 = 0;
        while n < largest {
            n += 1;
            vectors::next_table(sizes, targets, rates, counts, rewards, n, &mut table, &mut taken);
            add_to_blocks(sizes, n, levels, weights, &table, cells);
        }
        taken
    }

    fn last_quotient(sum: u64, total: u64) -> u64 {
        let down = muldiv::scaled(sum, ONE, total);
        if 2 * down.remainder >= total {
            down.quotient + 1
        } else {
            down.quotient
        }
    }

    fn divide_sums(total: u64, count: usize, cells: &mut [u64]) {
        for k in 0..count {
            cells[k] = last_quotient(cells[k], total);
        }
    }

    fn divide_blocks(totals: &[u64], block: usize, cells: &mut [u64]) {
        let count = totals.len();
        for k in 0..count {
            divide_sums(totals[k], block, &mut cells[k * block..]);
        }
    }

    fn larger(a: u64, b: u64) -> u64 {
        if a < b {
            b
        } else {
            a
        }
    }

    fn truncate_each(
        xs: &[u64],
        tolerance: u64,
        levels: &mut [u64],
        totals: &mut [u64],
        weights: &mut [u64],
    ) -> u64 {
        let count = xs.len();
        let mut largest: u64 = 0;
        for k in 0..count {
            let row = &mut weights[k * poisson::LEVELS..];
            let cut = poisson::truncate(xs[k], tolerance, row);
            levels[k] = cut.level;
            totals[k] = cut.sum;
            largest = larger(largest, cut.level);
        }
        largest
    }

    pub fn solve(
        sizes: Sizes,
        targets: &[u8],
        rates: &[u32],
        counts: &[usize; 64],
        rewards: &[u64; 64],
        xs: &[u64],
        tolerance: u64,
        weights: &mut [u64],
        levels: &mut [u64],
        cells: &mut [u64],
    ) -> u64 {
        let count = xs.len();
        let mut totals = [0u64; MOST_TIMES];
        let largest = truncate_each(xs, tolerance, levels, &mut totals, weights);
        let taken = accumulate(sizes, targets, rates, counts, rewards, &levels[..count], largest, weights, cells);
        divide_blocks(&totals[..count], sizes.block, cells);
        taken
    }
}

mod start {
    use super::definitions::ALL_WEIGHT;

    fn figure(weights: &[u64; 64], states: usize, highest: usize, r: usize, block: &[u64]) -> u64 {
        let mut total = 0;
        for i in 0..states {
            total += weights[i] * block[i * highest + r];
        }
        total / ALL_WEIGHT
    }

    fn put_figures(weights: &[u64; 64], states: usize, highest: usize, block: &mut [u64]) {
        let moments = states * highest;
        for r in 0..highest {
            block[moments + r] = figure(weights, states, highest, r, block);
        }
    }

    pub fn put_in_blocks(weights: &[u64; 64], states: usize, highest: usize, count: usize, cells: &mut [u64]) {
        let block = (states + 1) * highest;
        for k in 0..count {
            put_figures(weights, states, highest, &mut cells[k * block..]);
        }
    }
}

mod moments {
    use super::definitions::{Judgement, Outcome, Run, Series, Sizes, MOST_TIMES};
    use super::{means, poisson, reader, refusals, rows, start};

    const FEW_STATES: usize = 16;

    fn write_jumps(rate: u64, times: &[u32], xs: &mut [u64]) {
        let count = times.len();
        for k in 0..count {
            xs[k] = reader::jump_millionths(rate, times[k]);
        }
    }

    fn put_starts(file: &[u8], sizes: Sizes, count: usize, cells: &mut [u64]) {
        if reader::distributions(file) == 0 {
            return;
        }
        let weights = reader::weights_of(file);
        start::put_in_blocks(&weights, sizes.states, sizes.highest, count, cells);
    }

    fn fill_with(
        file: &[u8],
        times: &[u32],
        targets: &mut [u8],
        rates: &mut [u32],
        weights: &mut [u64],
        levels: &mut [u64],
        cells: &mut [u64],
    ) -> u64 {
        let sums = reader::row_sums(file);
        let sizes = reader::sizes_of(file, &sums);
        let mut counts = [0usize; 64];
        rows::list_rows(file, &sums, sizes.rate, targets, rates, &mut counts);
        let rewards = reader::rewards_of(file);
        let mut xs = [0u64; MOST_TIMES];
        write_jumps(sizes.rate, times, &mut xs);
        let count = times.len();
        let tolerance = reader::tolerance(file);
        let taken =
            means::solve(sizes, targets, rates, &counts, &rewards, &xs[..count], tolerance, weights, levels, cells);
        put_starts(file, sizes, count, cells);
        taken
    }

    fn fill(file: &[u8], times: &[u32], weights: &mut [u64], levels: &mut [u64], cells: &mut [u64]) -> u64 {
        let states = reader::state_count(file);
        if states <= FEW_STATES {
            let mut targets = [0u8; FEW_STATES * FEW_STATES];
            let mut rates = [0u32; FEW_STATES * FEW_STATES];
            return fill_with(file, times, &mut targets, &mut rates, weights, levels, cells);
        }
        let mut targets = [0u8; 64 * 64];
        let mut rates = [0u32; 64 * 64];
        fill_with(file, times, &mut targets, &mut rates, weights, levels, cells)
    }

    fn fill_own(file: &[u8], cells: &mut [u64]) -> Run {
        let times = [reader::time(file)];
        let mut weights = [0u64; poisson::LEVELS];
        let mut levels = [0u64];
        let means = fill(file, &times, &mut weights, &mut levels, cells);
        Run { level: levels[0], means }
    }

    pub fn calculate(file: &[u8], cells: &mut [u64]) -> Outcome {
        let judgement = refusals::judge(file, cells.len());
        match judgement {
            Judgement::Refused(k) => Outcome::Refused(k),
            Judgement::Accepted => Outcome::Solved(fill_own(file, cells)),
        }
    }

    fn fill_listed(file: &[u8], times: &[u32], levels: &mut [u64], cells: &mut [u64]) -> u64 {
        let mut weights = [0u64; MOST_TIMES * poisson::LEVELS];
        fill(file, times, &mut weights, levels, cells)
    }

    pub fn series(file: &[u8], times: &[u32], levels: &mut [u64], cells: &mut [u64]) -> Series {
        let judgement = refusals::judge_series(file, times, levels.len(), cells.len());
        match judgement {
            Judgement::Refused(row) => Series::Refused(row),
            Judgement::Accepted => Series::Solved(fill_listed(file, times, levels, cells)),
        }
    }
}

pub fn calculate(file: &[u8], cells: &mut [u64], row_means: &mut u64) -> Result<u64, u8> {
    match moments::calculate(file, cells) {
        Outcome::Solved(Run { level, means }) => {
            *row_means = means;
            Ok(level)
        }
        Outcome::Refused(row) => Err(row),
    }
}

pub fn series(
    file: &[u8],
    times: &[u32],
    levels: &mut [u64],
    cells: &mut [u64],
    row_means: &mut u64,
) -> Result<u64, u8> {
    match moments::series(file, times, levels, cells) {
        Series::Solved(taken) => {
            *row_means = taken;
            Ok(times.len() as u64)
        }
        Series::Refused(row) => Err(row),
    }
}
