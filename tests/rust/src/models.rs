//! Inputs from a seed: model files of both versions, whole and damaged, each with a number of answer cells; lists of times
//! for them; states, n and r; numbers of bytes for moved files; and numbers for practice files.

use crate::independent;
use std::collections::BTreeSet;

/// A generator of numbers (SplitMix64): the same seed gives the same inputs on every machine.
pub struct Chance(u64);

impl Chance {
    pub fn new(seed: u64) -> Chance {
        Chance(seed)
    }

    pub fn next(&mut self) -> u64 {
        self.0 = self.0.wrapping_add(0x9E37_79B9_7F4A_7C15);
        let mut z = self.0;
        z = (z ^ (z >> 30)).wrapping_mul(0xBF58_476D_1CE4_E5B9);
        z = (z ^ (z >> 27)).wrapping_mul(0x94D0_49BB_1331_11EB);
        z ^ (z >> 31)
    }

    /// From low to high, both included.
    pub fn between(&mut self, low: u64, high: u64) -> u64 {
        low + self.next() % (high - low + 1)
    }

    pub fn index(&mut self, count: usize) -> usize {
        self.between(0, count as u64 - 1) as usize
    }

    pub fn one_in(&mut self, n: u64) -> bool {
        self.between(1, n) == 1
    }

    pub fn of<T: Copy>(&mut self, choices: &[T]) -> T {
        choices[self.index(choices.len())]
    }

    /// From low to high, small numbers about as often as large ones.
    pub fn scaled(&mut self, low: u64, high: u64) -> u64 {
        let bits = self.between(1, 64 - high.leading_zeros() as u64);
        (low + (self.next() >> (64 - bits))).min(high)
    }
}

/// A file's numbers, before they are bytes.
#[derive(Clone)]
pub struct Fields {
    pub version: u8,
    pub states: u8,
    pub highest: u8,
    pub tolerance: u32,
    pub time: u32,
    /// M starting weights in version 2, none in version 1.
    pub start: Vec<u32>,
    pub rewards: Vec<u32>,
    /// M × (M − 1) rates, row by row.
    pub rates: Vec<u32>,
}

impl Fields {
    pub fn bytes(&self) -> Vec<u8> {
        let mut file = vec![0, 0, self.version, self.states, self.highest];
        file.extend(self.tolerance.to_be_bytes());
        file.extend(self.time.to_be_bytes());
        for word in self.start.iter().chain(&self.rewards).chain(&self.rates) {
            file.extend(word.to_be_bytes());
        }
        relength(&mut file);
        file
    }

    /// The cells that one time takes.
    pub fn block(&self) -> usize {
        let figures = usize::from(self.states) + usize::from(self.version == 2);
        figures * usize::from(self.highest)
    }

    /// The bytes that a file with so many states has in a version.
    fn length_in(&self, version: u8) -> usize {
        let states = usize::from(self.states);
        13 + 4 * states * states + if version == 2 { 4 * states } else { 0 }
    }

    /// The rates of row i.
    fn row(&mut self, i: usize) -> &mut [u32] {
        let width = usize::from(self.states) - 1;
        &mut self.rates[i * width..(i + 1) * width]
    }

    fn largest_row_sum(&self) -> u64 {
        match usize::from(self.states) - 1 {
            0 => 0,
            width => self.rates.chunks(width).map(|row| row.iter().map(|&rate| u64::from(rate)).sum()).max().unwrap_or(0),
        }
    }
}

/// Sets the length field to the bytes that follow it, cut to 16 bits.
fn relength(file: &mut [u8]) {
    let length = (file.len().wrapping_sub(2)) as u16;
    file[..2].copy_from_slice(&length.to_be_bytes());
}

/// One input: the bytes, and how many cells are lent.
pub struct Input {
    pub file: Vec<u8>,
    pub cells: usize,
}

/// One input with a list of times: also how many levels are lent.
#[derive(Clone)]
pub struct SeriesInput {
    pub file: Vec<u8>,
    pub times: Vec<u32>,
    pub levels: usize,
    pub cells: usize,
}

impl SeriesInput {
    /// The file with another time, bytes 9 to 12.
    pub fn with_time(&self, time: u32) -> Vec<u8> {
        let mut file = self.file.clone();
        file[9..13].copy_from_slice(&time.to_be_bytes());
        file
    }
}

/// The file's own time, bytes 9 to 12.
pub fn own_time(file: &[u8]) -> u32 {
    file[9..13].iter().fold(0, |sum, &byte| sum << 8 | u32::from(byte))
}

/// One input of the call for remainders: what is asked for are a state, n and r, in this order.
pub struct RemaindersInput {
    pub file: Vec<u8>,
    pub asked: [u64; 3],
}

/// One input of a call that moves a file to version TO: how many bytes are lent for the moved file.
pub struct MoveInput<const TO: u8> {
    pub file: Vec<u8>,
    pub out: usize,
}

impl<const TO: u8> MoveInput<TO> {
    /// The version that is moved.
    pub const FROM: u8 = 3 - TO;
}

/// One input of the call for practice files: M, R and the seed number, and how many bytes are lent for the file.
pub struct PracticeInput {
    pub states: u64,
    pub highest: u64,
    pub seed: u32,
    pub out: usize,
}

/// The bytes of a practice file of so many states.
pub fn practice_length(states: u64) -> usize {
    13 + 4 * (states * states) as usize
}

/// The sum of the starting weights.
const MILLION: u64 = 1_000_000;
/// The most that a starting weight can be.
const MOST: u64 = u32::MAX as u64;

pub fn either_version(chance: &mut Chance) -> u8 {
    chance.of(&[1, 2])
}

/// `total` shared out among the states, or as much of it as they can hold: all on one and, where that is full, on those
/// after it; evenly; or anyhow, with zeros or without.
fn share_out(chance: &mut Chance, total: u64, states: u8) -> Vec<u32> {
    let count = u64::from(states);
    let mut shares = vec![0; usize::from(states)];
    let mut left = total;
    let kind = chance.between(0, 6);
    for share in &mut shares {
        *share = match kind {
            0 | 1 => 0,
            2 => total / count,
            3 => chance.between(0, left),
            4 => chance.between(0, 2 * total / count).min(left),
            _ => chance.between(0, 4 * total / count).min(left) * chance.between(0, 1),
        }
        .min(MOST);
        left -= *share;
    }
    let any = chance.index(shares.len());
    let first = chance.of(&[0, shares.len() - 1, any]);
    shares.rotate_left(first);
    for share in &mut shares {
        let part = left.min(MOST - *share);
        *share += part;
        left -= part;
    }
    shares.rotate_right(first);
    shares.into_iter().map(|share| share as u32).collect()
}

/// Starting weights for a version: those of version 2 sum to 1,000,000.
fn start(chance: &mut Chance, version: u8, states: u8) -> Vec<u32> {
    if version == 2 { share_out(chance, MILLION, states) } else { vec![] }
}

/// All weight on one state, counted from 0.
pub fn start_on(state: usize, states: usize) -> Vec<u32> {
    let mut start = vec![0; states];
    start[state] = MILLION as u32;
    start
}

/// Sums that are not 1,000,000, up to what so many weights can reach: about it, past 32 bits, and those whose low bits
/// alone are 1,000,000.
pub fn wrong_sums(states: u8) -> Vec<u64> {
    let most = u64::from(states) * MOST;
    let mut sums = vec![0, 1, MILLION - 1, MILLION + 1, 2 * MILLION, MOST, MOST + 1, most];
    sums.extend([8, 16, 24, 31].map(|bits| MILLION + (1 << bits)));
    sums.extend((1..u64::from(states)).flat_map(|k| [MILLION - 1, MILLION, MILLION + 1].map(|low| (k << 32) + low)));
    sums.retain(|&sum| sum <= most);
    sums
}

/// Starting weights that sum to `total`.
pub fn start_of(chance: &mut Chance, total: u64, states: u8) -> Vec<u32> {
    let start = share_out(chance, total, states);
    assert_eq!(start.iter().map(|&weight| u64::from(weight)).sum::<u64>(), total);
    start
}

/// A model that is accepted. Row sums reach up to `exit` and the time is such that E × T is at most 256,000,000.
pub fn accepted(chance: &mut Chance, version: u8, states: u8, highest: u8) -> Fields {
    let width = usize::from(states) - 1;
    // E and T: X over its whole range, borders often
    let exit = match chance.between(0, 9) {
        0 => 0,
        1 => 1,
        2 => 10_000_000,
        3 => 1_000_000,
        _ => chance.scaled(1, 10_000_000),
    };
    let exit = if width == 0 { 0 } else { exit };
    let most_time = 256_000_000 / exit.max(1);
    let time = match chance.between(0, 5) {
        0 => 1,
        1 => most_time,
        2 => (chance.between(1, 6) * 1_000_000 / exit.max(1)).clamp(1, most_time),
        _ => chance.scaled(1, most_time),
    };
    let mut fields = Fields {
        version,
        states,
        highest,
        tolerance: match chance.between(0, 5) {
            0 => 1,
            1 => 100_000_000,
            _ => chance.scaled(1, 100_000_000) as u32,
        },
        time: time as u32,
        start: start(chance, version, states),
        rewards: (0..states).map(|_| reward(chance)).collect(),
        rates: vec![0; usize::from(states) * width],
    };
    if fields.rewards.iter().all(|&f| f == 0) {
        let i = chance.index(usize::from(states));
        fields.rewards[i] = chance.scaled(1, 1_000_000) as u32;
    }
    // some rows are absorbing, some full to E, the others anything between; one row is full, so that E is reached
    let full = chance.index(usize::from(states));
    for i in 0..usize::from(states) {
        let mut left = match chance.between(0, 4) {
            _ if i == full => exit,
            0 => 0,
            1 => exit,
            _ => chance.between(0, exit),
        };
        if width > 0 {
            let dense = !chance.one_in(3);
            for _ in 0..if dense { 3 * width } else { 2 } {
                let part = chance.between(0, left.min(1 + 2 * exit / width as u64));
                let j = chance.index(width);
                fields.row(i)[j] += part as u32;
                left -= part;
            }
            let j = chance.index(width);
            fields.row(i)[j] += left as u32;
        }
    }
    fields
}

fn reward(chance: &mut Chance) -> u32 {
    match chance.between(0, 5) {
        0 => 0,
        1 => 1_000_000,
        2 => 1,
        _ => chance.scaled(1, 1_000_000) as u32,
    }
}

/// A number of cells for a file: about its block, often at the border of row 13.
pub fn cells(chance: &mut Chance, fields: &Fields) -> usize {
    about(chance, fields.block(), 520)
}

/// A number about `needed`, often at the border where it is too low. `most` is what is enough for every input.
fn about(chance: &mut Chance, needed: usize, most: usize) -> usize {
    match chance.between(0, 9) {
        0 => 0,
        1 => needed.saturating_sub(1),
        2 => chance.index(needed.max(1)),
        3 => needed + 1,
        4 => most,
        5 => needed + chance.index(40),
        _ => needed,
    }
}

/// A row of the tables for `damage`.
fn any_row(chance: &mut Chance) -> u8 {
    chance.of(&[3, 4, 5, 6, 7, 8, 9, 10, 11, 12, 16, 17])
}

/// Makes some row hold.
pub fn damage_any(chance: &mut Chance, fields: &mut Fields) {
    let row = any_row(chance);
    damage(chance, fields, row);
}

/// Makes a row of the tables hold, where it can, or puts a number on the border that it lets pass. With two damages
/// several rows hold, and the first must be told.
fn damage(chance: &mut Chance, fields: &mut Fields, row: u8) {
    let i = chance.index(usize::from(fields.states.clamp(1, 64)));
    match row {
        3 => fields.version = chance.of(&[0, 3, 9, 255, chance_byte(fields)]),
        4 => fields.states = chance.of(&[0, 65, 128, 255]),
        5 => fields.highest = chance.of(&[0, 9, 128, 255]),
        // another number of states, the other version, or its length
        6 => match chance.between(0, 3) {
            0 => fields.version = 3 - fields.version.clamp(1, 2),
            1 if fields.start.is_empty() => fields.start = start(chance, 2, fields.states.max(1)),
            1 => fields.start.clear(),
            _ => fields.states = chance.of(&[1, 2, 3, 63, 64]),
        },
        7 => fields.tolerance = chance.of(&[0, 100_000_000, 100_000_001, u32::MAX]),
        8 => fields.time = 0,
        9 => {
            if let Some(f) = fields.rewards.get_mut(i) {
                *f = chance.of(&[1_000_000, 1_000_001, u32::MAX]);
            }
        }
        10 => fields.rewards.fill(0),
        11 if fields.states > 1 => {
            let over = chance.of(&[0, 1, 1, 1_000]);
            if chance.one_in(3) {
                // words so large that a sum of 32 bits would wrap
                fields.row(i).fill(chance.of(&[u32::MAX, 1 << 31, 1 << 26]));
            } else {
                let row = fields.row(i);
                let sum: u64 = row.iter().map(|&rate| u64::from(rate)).sum();
                row[0] = row[0].saturating_add((10_000_000 - sum.min(10_000_000)) as u32 + over);
                fields.time = chance.of(&[1, 25, 26]);
            }
        }
        12 => {
            let exit = fields.largest_row_sum().max(1);
            let border = 256_000_000 / exit;
            fields.time = chance.of(&[border, border + 1, u64::from(u32::MAX)]).min(u64::from(u32::MAX)) as u32;
        }
        16 if !fields.start.is_empty() => {
            let near = vec![MILLION - 1, MILLION + 1];
            let sums = if chance.one_in(2) { near } else { wrong_sums(fields.states) };
            let total = chance.of(&sums);
            fields.start = start_of(chance, total, fields.states);
        }
        // some of state 1's weight, or all, goes to another state
        17 if fields.start.len() > 1 => {
            let part = chance.of(&[fields.start[0].min(1), fields.start[0]]);
            let others = &mut fields.start[1..];
            let other = chance.index(others.len());
            others[other] += part;
            fields.start[0] -= part;
        }
        _ => {}
    }
}

/// A version that is not 1 or 2 and depends on the file.
fn chance_byte(fields: &Fields) -> u8 {
    (fields.time as u8).max(3)
}

/// A low number of states.
fn few(chance: &mut Chance) -> u64 {
    match chance.between(0, 9) {
        0 => 1,
        1..=6 => chance.between(2, 4),
        7 | 8 => chance.between(5, 7),
        _ => chance.between(8, 12),
    }
}

/// A model of few states that is accepted.
fn few_states(chance: &mut Chance, version: u8) -> Fields {
    let states = few(chance) as u8;
    let highest = chance.between(1, 8) as u8;
    accepted(chance, version, states, highest)
}

/// How a file is spoiled.
#[derive(Clone, Copy, PartialEq)]
enum Spoiling {
    Not,
    OneDamage,
    TwoDamages,
    /// cut short, or longer, with the length put right or not
    Length,
    /// bytes changed anywhere
    Bytes,
    /// no file at all: random bytes, the first few as a file's would be
    Random,
}

impl Spoiling {
    /// Each in turn, whole files most often.
    fn turn(k: usize) -> Spoiling {
        use Spoiling::*;
        [Not, Not, Not, Not, OneDamage, OneDamage, TwoDamages, Length, Bytes, Random][k % 10]
    }

    fn bytes(self, chance: &mut Chance, mut fields: Fields) -> Vec<u8> {
        match self {
            Spoiling::Not => fields.bytes(),
            Spoiling::OneDamage => {
                damage_any(chance, &mut fields);
                fields.bytes()
            }
            Spoiling::TwoDamages => {
                let (row, other) = (any_row(chance), any_row(chance));
                // the states last: the other damages count on them
                damage(chance, &mut fields, row.max(other));
                damage(chance, &mut fields, row.min(other));
                fields.bytes()
            }
            Spoiling::Length => {
                let mut file = fields.bytes();
                if chance.one_in(2) {
                    let left = chance.index(file.len() + 1);
                    file.truncate(left);
                } else {
                    let more = chance.between(1, 9);
                    file.extend((0..more).map(|_| 0));
                }
                if file.len() >= 2 && chance.one_in(2) {
                    relength(&mut file);
                }
                file
            }
            Spoiling::Bytes => {
                let mut file = fields.bytes();
                for _ in 0..chance.between(1, 3) {
                    let at = chance.index(file.len());
                    file[at] = chance.next() as u8;
                }
                file
            }
            Spoiling::Random => {
                let length = chance.index(80);
                let mut file: Vec<u8> = (0..length).map(|_| chance.next() as u8).collect();
                let known = chance.index(14).min(length);
                file[..known].copy_from_slice(&fields.bytes()[..known]);
                if length >= 2 && !chance.one_in(3) {
                    relength(&mut file);
                }
                file
            }
        }
    }
}

/// A small input: a whole file, a damaged one, or bytes that are no file. `k` picks the kind in turn.
pub fn small(chance: &mut Chance, k: usize) -> Input {
    let version = either_version(chance);
    let fields = few_states(chance, version);
    let cells = cells(chance, &fields);
    let spoiling = Spoiling::turn(k);
    let file = spoiling.bytes(chance, fields);
    Input { file, cells: if spoiling == Spoiling::Random { chance.index(600) } else { cells } }
}

/// `count` rising times from 1 to `latest`, which is at least `count`: near each other, over the whole range, or up to
/// its end.
pub fn rising(chance: &mut Chance, count: usize, latest: u32) -> Vec<u32> {
    let latest = u64::from(latest);
    let kind = chance.between(0, 3);
    let mut times = BTreeSet::new();
    if kind == 0 {
        let first = chance.scaled(1, latest - count as u64 + 1);
        times.extend(first..first + count as u64);
    }
    if kind == 1 && count > 0 {
        times.insert(latest);
    }
    while times.len() < count {
        times.insert(if chance.one_in(2) { chance.scaled(1, latest) } else { chance.between(1, latest) });
    }
    times.into_iter().map(|time| time as u32).collect()
}

/// Makes one of the rows that a list is judged by hold, where it can.
fn damage_times(chance: &mut Chance, times: &mut Vec<u32>, latest: u32) {
    let late = [latest + 1, 1 << 31, u32::MAX];
    let at = chance.index(times.len().max(1));
    match chance.between(0, 9) {
        0 => times.clear(),
        // more than 8, rising as far as they did
        1 => {
            for _ in times.len()..chance.between(9, 10) as usize {
                let next = times.last().map_or(1, |&last| last.saturating_add(1));
                times.push(next);
            }
        }
        2 | 3 if at > 0 => times[at] = times[at - 1],
        4 if at > 0 => times.swap(at - 1, at),
        5 if at > 0 => times[at] = 0,
        // 0, alone or with all after it still rising
        6 if !times.is_empty() => times[0] = 0,
        7 => times.reverse(),
        8 => {
            if let Some(last) = times.last_mut() {
                *last = chance.of(&late);
            }
        }
        _ if !times.is_empty() => times[at] = chance.of(&late),
        _ => {}
    }
}

/// A file with a list of times. `k` picks in turn how the file is spoiled. A file may also have an own time that row 12
/// would stop, and a list may be damaged, by one row or by two.
pub fn series(chance: &mut Chance, k: usize) -> SeriesInput {
    let version = either_version(chance);
    let mut fields = few_states(chance, version);
    let block = fields.block();
    let latest = (256_000_000 / fields.largest_row_sum().max(1)) as u32;
    let count = if chance.one_in(4) { 8 } else { chance.between(1, 8) as usize };
    let mut times = rising(chance, count, latest);
    if chance.one_in(4) {
        fields.time = chance.of(&[1, latest, latest + 1, u32::MAX]);
    }
    for _ in 0..chance.of(&[0, 0, 0, 1, 1, 2]) {
        damage_times(chance, &mut times, latest);
    }
    let needed = times.len() * block;
    SeriesInput {
        levels: if chance.one_in(2) { times.len() } else { about(chance, times.len(), 8) },
        cells: match chance.between(0, 9) {
            0 => block,
            1 => needed.saturating_sub(block),
            2..=5 => about(chance, needed, 8 * 520),
            _ => needed,
        },
        times,
        file: Spoiling::turn(k).bytes(chance, fields),
    }
}

/// A whole file of `states` with a list of `count` times, and as many levels and cells as it takes.
pub fn whole_series(chance: &mut Chance, version: u8, states: u8, count: usize) -> SeriesInput {
    let highest = chance.between(1, 8) as u8;
    let fields = accepted(chance, version, states, highest);
    let latest = (256_000_000 / fields.largest_row_sum().max(1)) as u32;
    let times = rising(chance, count, latest);
    SeriesInput { file: fields.bytes(), times, levels: count, cells: count * fields.block() }
}

/// M, N and R of a file that no row up to 12 stops: what state, n and r may be at most.
pub fn limits(file: &[u8]) -> [u64; 3] {
    independent::sizes(file).expect("an accepted file").limits
}

/// Numbers at the borders of 1 to `limit`, and two that are inside by their low 32 bits alone.
pub fn borders(limit: u64) -> [u64; 7] {
    [0, 1, limit, limit + 1, (1 << 32) + 1, (1 << 32) + limit, u64::MAX]
}

/// From 1 to `limit`, its ends often.
fn inside(chance: &mut Chance, limit: u64) -> u64 {
    match chance.between(0, 3) {
        0 => 1,
        1 => limit,
        _ => chance.between(1, limit),
    }
}

/// Outside 1 to `limit`, which is below 1,024; often inside by its low bits alone.
fn outside(chance: &mut Chance, limit: u64) -> u64 {
    let low_bits = inside(chance, limit);
    match chance.between(0, 7) {
        0 => 0,
        1 => limit + 1,
        2 => (1 << 32) + 1,
        3 => u64::MAX,
        4 => limit + chance.scaled(1, 1_000),
        _ => (1 << chance.of(&[10, 16, 31, 32, 63])) + low_bits,
    }
}

/// A state, n and r: all inside, one outside, or all outside.
pub fn ask(chance: &mut Chance, limits: [u64; 3]) -> [u64; 3] {
    let mut asked = limits.map(|limit| inside(chance, limit));
    match chance.index(8) {
        one @ 0..=2 => asked[one] = outside(chance, limits[one]),
        3 => asked = limits.map(|limit| outside(chance, limit)),
        _ => {}
    }
    asked
}

/// A file with a state, n and r that are drawn for the whole file; `k` picks in turn how it is spoiled then.
pub fn remainders(chance: &mut Chance, k: usize) -> RemaindersInput {
    let version = either_version(chance);
    let fields = few_states(chance, version);
    let asked = ask(chance, limits(&fields.bytes()));
    RemaindersInput { file: Spoiling::turn(k).bytes(chance, fields), asked }
}

/// A model of `states` that can be moved to version TO.
pub fn movable<const TO: u8>(chance: &mut Chance, states: u8, highest: u8) -> Fields {
    let mut fields = accepted(chance, MoveInput::<TO>::FROM, states, highest);
    if TO == 1 {
        fields.start = start_on(0, usize::from(states));
    }
    fields
}

/// A file with a number of bytes for the moved file, often at the border of row 13. `k` picks in turn how the file is
/// spoiled. Most files can be moved to version TO; some are of that version, or have weight on other states.
pub fn moves<const TO: u8>(chance: &mut Chance, k: usize) -> MoveInput<TO> {
    let version = if chance.one_in(10) { TO } else { MoveInput::<TO>::FROM };
    let mut fields = few_states(chance, version);
    if version == 2 && !chance.one_in(5) {
        fields.start = start_on(0, usize::from(fields.states));
    }
    let out = about(chance, fields.length_in(TO), 16_653);
    MoveInput { file: Spoiling::turn(k).bytes(chance, fields), out }
}

/// A whole file of `states` with as many bytes as the moved one takes.
pub fn whole_move<const TO: u8>(chance: &mut Chance, states: u8, highest: u8) -> MoveInput<TO> {
    let fields = movable::<TO>(chance, states, highest);
    MoveInput { file: fields.bytes(), out: fields.length_in(TO) }
}

/// The seed number from which that many steps of the stream lead to `word`: 4276115653 × 1664525 is 1 in 32 bits.
pub fn seed_before(word: u32, steps: usize) -> u32 {
    (0..steps).fold(word, |next, _| next.wrapping_sub(1_013_904_223).wrapping_mul(4_276_115_653))
}

/// A seed number; often one at the borders, or one with a draw at the borders among the first `draws` of its stream.
fn seed(chance: &mut Chance, draws: usize) -> u32 {
    let multiple = 4_096 * chance.between(0, 16);
    let draw = chance.of(&[multiple.min(65_535), multiple.saturating_sub(1), 0, 65_535]) as u32;
    let word = draw << 16 | chance.between(0, 65_535) as u32;
    match chance.between(0, 4) {
        0 => chance.of(&[0, 1, 1 << 31, u32::MAX]),
        1 => seed_before(word, 1),
        2 => seed_before(word, chance.between(1, draws as u64) as usize),
        _ => chance.next() as u32,
    }
}

/// A low M, R and a seed number, with a number of bytes for the file, often at the border of row 13. M may be outside, or
/// R, or both.
pub fn practice(chance: &mut Chance) -> PracticeInput {
    let states = few(chance);
    let draws = 1 + (states * states) as usize;
    let out = about(chance, practice_length(states), 16_653);
    let mut input = PracticeInput { states, highest: chance.between(1, 8), seed: seed(chance, draws), out };
    let kind = chance.index(8);
    if kind == 0 || kind == 1 {
        input.states = outside(chance, 64);
    }
    if kind == 1 || kind == 2 {
        input.highest = outside(chance, 8);
    }
    input
}

/// Two states and N = 1: of 1,000 drawn pairs of rewards the one with which the last division of state 1's first moment
/// comes nearest to a half. Two of three X have enough factors of two for a half to be met.
pub fn half_tick(chance: &mut Chance) -> Fields {
    let x = match chance.between(0, 2) {
        0 => 48_576,
        1 => 8_000 + 16_000 * chance.between(0, 29),
        _ => chance.between(1, 474_000), // N is 1 up to X = 474,271
    };
    // S(1) is 10^9 × (1,000,000 + X), so A × 10^12 over it is 1,000 × A over 1,000,000 + X.
    let divisor = 1_000_000 + x;
    let off_half = |rewards: &[u64; 2]| {
        let largest = rewards[0].max(rewards[1]);
        let [first, second] = rewards.map(|f| f * 1_000_000_000_000 / largest);
        let a = 1_000 * first + x * ((second + first) / 2) / 1_000;
        (2 * (1_000 * a % divisor)).abs_diff(divisor)
    };
    let drawn = (0..1_000).map(|_| {
        let largest = chance.scaled(1, 1_000_000);
        let other = chance.between(0, largest);
        if chance.one_in(2) { [largest, other] } else { [other, largest] }
    });
    let rewards = drawn.min_by_key(off_half).expect("1,000 pairs").map(|f| f as u32).to_vec();
    let version = either_version(chance);
    Fields {
        version,
        states: 2,
        highest: chance.between(1, 8) as u8,
        tolerance: 100_000_000,
        time: 1,
        start: start(chance, version, 2),
        rewards,
        rates: vec![x as u32, chance.between(0, x) as u32],
    }
}

/// The longest calculation: 64 states, R = 8, q = 256, tolerance 1, dense random rates.
pub fn heaviest(chance: &mut Chance, version: u8) -> Fields {
    let states = 64;
    let mut fields = Fields {
        version,
        states,
        highest: 8,
        tolerance: 1,
        time: 64,
        start: start(chance, version, states),
        rewards: (0..states).map(|_| chance.between(0, 1_000_000) as u32).collect(),
        rates: (0..64 * 63).map(|_| chance.between(1, 63_000) as u32).collect(),
    };
    // the first row is filled to E = 4,000,000, and X = 256,000,000
    let sum: u32 = fields.row(0).iter().sum();
    fields.row(0)[0] += 4_000_000 - sum;
    fields
}
