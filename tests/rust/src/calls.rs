//! The exported calls, each with an input to be tried on: what it answers and writes, that it changes nothing else, and
//! what its inputs must reach.

use crate::lent::Lent;
use crate::models::{self, Input, MoveInput, PracticeInput, RemaindersInput, SeriesInput};
use crate::{independent, library};

/// The number that an accepting call returns, or the row that refuses.
pub type Answer = Result<u64, u8>;

/// What a call wrote: for each slice lent to be written to, the name of its elements and those written, from the first on.
pub type Written = Vec<(&'static str, Vec<u64>)>;

/// What a call did with one input.
pub struct Outcome {
    pub answer: Answer,
    /// Or what it changed that it must not, in words.
    pub written: Result<Written, String>,
}

impl Outcome {
    /// What differs from an expected outcome, in words; `by` says whose it is.
    pub fn compare(&self, expected: &Outcome, by: &str) -> Result<(), String> {
        if self.answer != expected.answer {
            return Err(format!("the answer is {:?}, and {by} {:?}", self.answer, expected.answer));
        }
        let written = self.written.as_ref()?;
        let expected = expected.written.as_ref().map_err(|what| format!("{by} {what}"))?;
        for ((name, got), (_, expected)) in written.iter().zip(expected) {
            if got.len() != expected.len() {
                return Err(format!("{name}: {} are written, and {by} {}", got.len(), expected.len()));
            }
            if let Some(at) = (0..got.len()).find(|&at| got[at] != expected[at]) {
                return Err(format!("{name} {at} holds {}, and {by} {}", got[at], expected[at]));
            }
        }
        Ok(())
    }
}

/// Ends beyond acceptance and each row that inputs of a call must come to, in groups.
pub type Ends = &'static [&'static [&'static str]];

/// An input of one of the calls.
pub trait Case {
    /// The call's name.
    const CALL: &'static str;
    /// The rows of its table that can be the first to hold, in its order.
    const ROWS: &'static [u8];
    const ENDS: Ends;
    /// The call as a function.
    type Function;
    const PROVED: Self::Function;
    const INDEPENDENT: Self::Function;

    /// Calls on lent slices.
    fn run(&self, call: Self::Function) -> Outcome;

    /// Whether what an accepting call wrote, with this answer, is what else the papers say of it; or what is not.
    fn accepted(&self, answer: u64, written: &Written) -> Result<(), String>;

    /// Those of the ends that the input came to.
    fn ends(&self, answer: Answer, written: &Written) -> Vec<&'static str>;

    /// The file that is lent, where one is.
    fn file(&self) -> Option<&[u8]>;

    /// All but the file, in words.
    fn lent(&self) -> String;
}

/// What the proved call does with an input, where the independent one does the same; or what differs.
pub fn both<C: Case>(input: &C) -> Result<(Answer, Written), String> {
    let proved = input.run(C::PROVED);
    proved.compare(&input.run(C::INDEPENDENT), "independently")?;
    let written = proved.written?;
    if let Ok(answer) = proved.answer {
        input.accepted(answer, &written)?;
    }
    Ok((proved.answer, written))
}

/// The cells that one time takes for an accepted file: M × R, and in version 2 R more.
fn block(file: &[u8]) -> usize {
    let figures = usize::from(file[3]) + usize::from(file[2] == 2);
    figures * usize::from(file[4])
}

/// Every moment and every start figure is at most one.
fn at_most_one(cells: &[u64]) -> Result<(), String> {
    match cells.iter().find(|&&cell| cell > 1_000_000_000_000) {
        None => Ok(()),
        Some(cell) => Err(format!("{cell} is no moment and no start figure")),
    }
}

/// The number of row means of a run of an accepted file to this level: one for each state, each r and each n from 1.
fn row_means_to(level: u64, file: &[u8]) -> u64 {
    level * u64::from(file[3]) * u64::from(file[4])
}

/// Whether the number of row means is that of the level, of several times the largest.
fn row_means_are_of(levels: &[u64], file: &[u8], row_means: &[u64]) -> Result<(), String> {
    let largest = levels.iter().copied().max().expect("a time");
    match row_means_to(largest, file) {
        right if row_means == [right] => Ok(()),
        right => Err(format!("{row_means:?} row means, and N × M × R is {right}")),
    }
}

/// Whether the level of an accepted file at this time is at most 2 × m + 51.
fn level_is_bounded(file: &[u8], time: u32, level: u64) -> Result<(), String> {
    let [exit, _] = independent::sizes(file).expect("an accepted file").divisors;
    let most = 2 * (exit * u64::from(time) / 1_000_000) + 51;
    if level > most {
        return Err(format!("the level {level} is above {most}"));
    }
    Ok(())
}

/// The sum of the starting weights.
const MILLION: u64 = 1_000_000;

/// The starting weights of a file that no row up to 8 stops; none in version 1.
fn start(file: &[u8]) -> Vec<u64> {
    let count = if file[2] == 2 { usize::from(file[3]) } else { 0 };
    let word = |bytes: &[u8]| bytes.iter().fold(0, |sum, &byte| sum << 8 | u64::from(byte));
    file[13..13 + 4 * count].chunks(4).map(word).collect()
}

const VERSION_1: &str = "accepted, version 1";
const VERSION_2: &str = "accepted, version 2";
/// Where the weight is, in an accepted file of version 2.
const ON_FIRST: &str = "all weight on state 1";
const ON_LAST: &str = "all on the last of several states";
const ON_ANOTHER: &str = "all on a state between";
const ON_SOME: &str = "on several states but not on all";
const ON_ALL: &str = "on each of several states";
const VERSION_0: &str = "3 by version 0";
const VERSION_3: &str = "3 by version 3";
const VERSION_255: &str = "3 by version 255";
const LENGTH_OF_2: &str = "6 by version 2's length in version 1";
const LENGTH_OF_1: &str = "6 by version 1's length in version 2";
const ONE_BELOW: &str = "16 by a sum one below";
const ONE_ABOVE: &str = "16 by a sum one above";
const PAST_32_BITS: &str = "16 by a sum past 32 bits";
const LOW_32_BITS: &str = "16 by a sum right in its low 32 bits alone";

const ACCEPTED_VERSIONS: &[&str] = &[VERSION_1, VERSION_2, ON_FIRST, ON_LAST, ON_ANOTHER, ON_SOME, ON_ALL];
const WRONG_VERSIONS: &[&str] = &[VERSION_0, VERSION_3, VERSION_255, LENGTH_OF_2, LENGTH_OF_1];
const WRONG_SUMS: &[&str] = &[ONE_BELOW, ONE_ABOVE, PAST_32_BITS, LOW_32_BITS];

/// Those of the ends by the version and the starting weights that a file came to.
fn version_ends(file: &[u8], answer: Answer) -> Vec<&'static str> {
    match answer {
        Ok(_) if file[2] == 1 => vec![VERSION_1],
        Ok(_) => vec![VERSION_2, place(&start(file))],
        Err(3) => match file[2] {
            0 => vec![VERSION_0],
            3 => vec![VERSION_3],
            255 => vec![VERSION_255],
            _ => vec![],
        },
        Err(6) => {
            let states = usize::from(file[3]);
            let [of_1, of_2] = [4 * states * states, 4 * states * states + 4 * states].map(|length| length + 13);
            match file[2] {
                1 if file.len() == of_2 => vec![LENGTH_OF_2],
                2 if file.len() == of_1 => vec![LENGTH_OF_1],
                _ => vec![],
            }
        }
        Err(16) => match start(file).iter().sum::<u64>() {
            999_999 => vec![ONE_BELOW],
            1_000_001 => vec![ONE_ABOVE],
            sum if sum % (1 << 32) == MILLION => vec![PAST_32_BITS, LOW_32_BITS],
            sum if sum >> 32 > 0 => vec![PAST_32_BITS],
            _ => vec![],
        },
        Err(_) => vec![],
    }
}

/// Where the weight is.
fn place(start: &[u64]) -> &'static str {
    let last = start.len() - 1;
    match start.iter().position(|&weight| weight == MILLION) {
        Some(0) => ON_FIRST,
        Some(state) if state == last => ON_LAST,
        Some(_) => ON_ANOTHER,
        None if start.contains(&0) => ON_SOME,
        None => ON_ALL,
    }
}

const ROUNDED_BY_HALF: &str = "accepted, a start figure half a tick or more below its sum";
const PAST_16_BITS: &str = "accepted, more than 65,535 row means";

/// In an accepted file of version 2: the moments and the start figures of a block.
fn moments_and_figures<'a>(file: &[u8], block: &'a [u64]) -> (&'a [u64], &'a [u64]) {
    block.split_at(usize::from(file[3]) * usize::from(file[4]))
}

/// Whether a start figure would be another by the nearest.
fn rounded_by_half(file: &[u8], block: &[u64]) -> bool {
    let (moments, figures) = moments_and_figures(file, block);
    let sum = |r| -> u128 {
        let products = start(file).into_iter().zip(moments.chunks(figures.len()));
        products.map(|(weight, of)| u128::from(weight) * u128::from(of[r])).sum()
    };
    (0..figures.len()).any(|r| sum(r) % 1_000_000 >= 500_000)
}

/// With all weight on one state, the start figures are that state's moments.
fn start_is_of_one(file: &[u8], block: &[u64]) -> Result<(), String> {
    let (moments, figures) = moments_and_figures(file, block);
    match start(file).iter().position(|&weight| weight == MILLION) {
        Some(state) if moments[state * figures.len()..][..figures.len()] != *figures => {
            Err(format!("the start figures are not the moments of state {}, which has all weight", state + 1))
        }
        _ => Ok(()),
    }
}

impl Case for Input {
    const CALL: &'static str = "calculate";
    const ROWS: &'static [u8] = &[1, 2, 3, 4, 5, 6, 7, 8, 16, 9, 10, 11, 12, 13];
    const ENDS: Ends = &[ACCEPTED_VERSIONS, WRONG_VERSIONS, WRONG_SUMS, &[ROUNDED_BY_HALF, PAST_16_BITS]];
    type Function = fn(&[u8], &mut [u64], &mut u64) -> Answer;
    const PROVED: Self::Function = library::calculate;
    const INDEPENDENT: Self::Function = independent::calculate;

    fn run(&self, call: Self::Function) -> Outcome {
        let file = Lent::holding("byte", &self.file);
        let mut cells = Lent::marked("cell", self.cells);
        let mut row_means = Lent::marked("row means", 1);
        let answer = call(file.slice(), cells.slice_mut(), row_means.number_mut());
        let (count, one) = answer.map_or((0, 0), |_| (block(&self.file), 1));
        let written = file.unchanged().and_then(|()| Ok(vec![cells.written(count)?, row_means.written(one)?]));
        Outcome { answer, written }
    }

    fn accepted(&self, level: u64, written: &Written) -> Result<(), String> {
        at_most_one(&written[0].1)?;
        start_is_of_one(&self.file, &written[0].1)?;
        row_means_are_of(&[level], &self.file, &written[1].1)?;
        level_is_bounded(&self.file, models::own_time(&self.file), level)
    }

    fn ends(&self, answer: Answer, written: &Written) -> Vec<&'static str> {
        let mut ends = version_ends(&self.file, answer);
        if answer.is_ok() {
            ends.extend(rounded_by_half(&self.file, &written[0].1).then_some(ROUNDED_BY_HALF));
            ends.extend((written[1].1[0] > 65_535).then_some(PAST_16_BITS));
        }
        ends
    }

    fn file(&self) -> Option<&[u8]> {
        Some(&self.file)
    }

    fn lent(&self) -> String {
        format!("{} cells", self.cells)
    }
}

const OWN_TIME_TOO_LATE: &str = "accepted, the file's own time too late";
const LEVELS_DIFFER: &str = "accepted, the levels not all the same";
const TIMES: [&str; 8] = ["1 time", "2 times", "3 times", "4 times", "5 times", "6 times", "7 times", "8 times"];
const OWN_TIME_0: &str = "8 by the file's own time";
const FIRST_TIME_0: &str = "8 by the first listed time alone";
const NO_TIME: &str = "14 by no time";
const MANY_TIMES: &str = "14 by more than 8";
const EQUAL: &str = "15 by equal times";
const FALLING: &str = "15 by a falling time";
const OWN_TIME_FITS: &str = "12, the file's own time in range";
const FEW_LEVELS: &str = "13 by the levels alone";
const FEW_CELLS: &str = "13 by the cells alone";
const FEW_OF_BOTH: &str = "13 by both";

impl Case for SeriesInput {
    const CALL: &'static str = "series";
    const ROWS: &'static [u8] = &[1, 2, 3, 4, 5, 6, 7, 8, 16, 9, 10, 11, 14, 15, 12, 13];
    const ENDS: Ends = &[
        ACCEPTED_VERSIONS,
        WRONG_VERSIONS,
        WRONG_SUMS,
        &TIMES,
        &[LEVELS_DIFFER, PAST_16_BITS, OWN_TIME_TOO_LATE],
        &[OWN_TIME_0, FIRST_TIME_0, NO_TIME, MANY_TIMES, EQUAL, FALLING],
        &[OWN_TIME_FITS, FEW_LEVELS, FEW_CELLS, FEW_OF_BOTH],
    ];
    type Function = fn(&[u8], &[u32], &mut [u64], &mut [u64], &mut u64) -> Answer;
    const PROVED: Self::Function = library::series;
    const INDEPENDENT: Self::Function = independent::series;

    fn run(&self, call: Self::Function) -> Outcome {
        let file = Lent::holding("byte", &self.file);
        let times = Lent::holding("time", &self.times);
        let mut levels = Lent::marked("level", self.levels);
        let mut cells = Lent::marked("cell", self.cells);
        let mut row_means = Lent::marked("row means", 1);
        let answer = call(file.slice(), times.slice(), levels.slice_mut(), cells.slice_mut(), row_means.number_mut());
        let (count, block, one) = answer.map_or((0, 0, 0), |_| (self.times.len(), block(&self.file), 1));
        let written = file
            .unchanged()
            .and_then(|()| times.unchanged())
            .and_then(|()| Ok(vec![levels.written(count)?, cells.written(count * block)?, row_means.written(one)?]));
        Outcome { answer, written }
    }

    /// Each level and each block is that of the file with the time in bytes 9 to 12; the row means are those of the
    /// largest level.
    fn accepted(&self, _: u64, written: &Written) -> Result<(), String> {
        let (levels, cells) = (&written[0].1, &written[1].1);
        let block = block(&self.file);
        at_most_one(cells)?;
        row_means_are_of(levels, &self.file, &written[2].1)?;
        for (k, &time) in self.times.iter().enumerate() {
            let file = self.with_time(time);
            level_is_bounded(&file, time, levels[k])?;
            let figures = cells[k * block..][..block].to_vec();
            let row_means = vec![row_means_to(levels[k], &file)];
            let listed = vec![("cell", figures), ("row means", row_means)];
            let alone = Input { file, cells: block }.run(library::calculate);
            let listed = Outcome { answer: Ok(levels[k]), written: Ok(listed) };
            listed.compare(&alone, "alone").map_err(|what| format!("time {time}: {what}"))?;
        }
        Ok(())
    }

    fn ends(&self, answer: Answer, written: &Written) -> Vec<&'static str> {
        let count = self.times.len();
        let own = || library::calculate(&self.file, &mut [0; 520], &mut 0);
        let mut ends = version_ends(&self.file, answer);
        ends.extend(match answer {
            Ok(_) => {
                let levels = &written[0].1;
                let mut ends = vec![TIMES[count - 1]];
                ends.extend(levels.iter().any(|level| level != &levels[0]).then_some(LEVELS_DIFFER));
                ends.extend((written[2].1[0] > 65_535).then_some(PAST_16_BITS));
                ends.extend((own() == Err(12)).then_some(OWN_TIME_TOO_LATE));
                ends
            }
            Err(8) if self.file[9..13] == [0; 4] => vec![OWN_TIME_0],
            Err(8) => vec![FIRST_TIME_0],
            Err(14) if count == 0 => vec![NO_TIME],
            Err(14) => vec![MANY_TIMES],
            Err(15) if self.times.windows(2).all(|pair| pair[0] <= pair[1]) => vec![EQUAL],
            Err(15) if self.times.windows(2).all(|pair| pair[0] != pair[1]) => vec![FALLING],
            Err(12) if own().is_ok() => vec![OWN_TIME_FITS],
            Err(13) => match (self.levels < count, self.cells < count * block(&self.file)) {
                (true, false) => vec![FEW_LEVELS],
                (false, _) => vec![FEW_CELLS],
                (true, true) => vec![FEW_OF_BOTH],
            },
            Err(_) => vec![],
        });
        ends
    }

    fn file(&self) -> Option<&[u8]> {
        Some(&self.file)
    }

    fn lent(&self) -> String {
        format!("times {:?}, {} levels, {} cells", self.times, self.levels, self.cells)
    }
}

const GIVEN: &str = "given";
const ALL_ABOVE_0: &str = "given, all three above 0";
const NONE_BY: [&str; 3] = ["none by the state alone", "none by n alone", "none by r alone"];
/// For each of state, n and r: its borders, in the order of `models::borders`, the other two inside.
const BORDERS: [[&str; 7]; 3] = [
    ["state 0", "state 1", "state M", "state M + 1", "state 2^32 + 1", "state 2^32 + M", "state 2^64 - 1"],
    ["n 0", "n 1", "n N", "n N + 1", "n 2^32 + 1", "n 2^32 + N", "n 2^64 - 1"],
    ["r 0", "r 1", "r R", "r R + 1", "r 2^32 + 1", "r 2^32 + R", "r 2^64 - 1"],
];
/// A refusal by each row, in the table's order, with a state, n and r that are outside in any file.
const ALL_OUTSIDE: [&str; 13] = [
    "1, all outside",
    "2, all outside",
    "3, all outside",
    "4, all outside",
    "5, all outside",
    "6, all outside",
    "7, all outside",
    "8, all outside",
    "16, all outside",
    "9, all outside",
    "10, all outside",
    "11, all outside",
    "12, all outside",
];
/// What M, N and R are at most in any file.
const MOST: [u64; 3] = [64, 1_024, 8];

impl RemaindersInput {
    /// Which of state, n and r are from 1 to their limits.
    fn inside(&self, limits: [u64; 3]) -> [bool; 3] {
        [0, 1, 2].map(|k| (1..=limits[k]).contains(&self.asked[k]))
    }
}

impl Case for RemaindersInput {
    const CALL: &'static str = "remainders";
    const ROWS: &'static [u8] = &[1, 2, 3, 4, 5, 6, 7, 8, 16, 9, 10, 11, 12];
    const ENDS: Ends = &[
        ACCEPTED_VERSIONS,
        WRONG_VERSIONS,
        WRONG_SUMS,
        &[GIVEN, ALL_ABOVE_0],
        &NONE_BY,
        &BORDERS[0],
        &BORDERS[1],
        &BORDERS[2],
        &ALL_OUTSIDE,
    ];
    type Function = fn(&[u8], [u64; 3], &mut u64, &mut u64, &mut u64) -> Answer;
    const PROVED: Self::Function = library::remainders;
    const INDEPENDENT: Self::Function = independent::remainders;

    fn run(&self, call: Self::Function) -> Outcome {
        let file = Lent::holding("byte", &self.file);
        let [mut mean, mut share, mut mix] = ["mean", "share", "mix"].map(|name| Lent::marked(name, 1));
        let answer = call(file.slice(), self.asked, mean.number_mut(), share.number_mut(), mix.number_mut());
        let count = usize::from(answer == Ok(library::GIVEN));
        let written =
            file.unchanged().and_then(|()| Ok(vec![mean.written(count)?, share.written(count)?, mix.written(count)?]));
        Outcome { answer, written }
    }

    /// Each remainder is below its divisor: E, F, and n + r.
    fn accepted(&self, answer: u64, written: &Written) -> Result<(), String> {
        if answer == library::NONE {
            return Ok(());
        }
        let [exit, largest] = independent::sizes(&self.file).expect("an accepted file").divisors;
        let [_, n, r] = self.asked;
        for ((name, remainder), divisor) in written.iter().zip([exit, largest, n + r]) {
            if remainder[0] >= divisor {
                return Err(format!("{name} is {}, and its divisor {divisor}", remainder[0]));
            }
        }
        Ok(())
    }

    fn ends(&self, answer: Answer, written: &Written) -> Vec<&'static str> {
        let mut ends = version_ends(&self.file, answer);
        if let Err(row) = answer {
            if self.inside(MOST) == [false; 3] {
                let at = Self::ROWS.iter().position(|&other| other == row).expect("a row of the table");
                ends.push(ALL_OUTSIDE[at]);
            }
            return ends;
        }
        let limits = models::limits(&self.file);
        let inside = self.inside(limits);
        if answer == Ok(library::GIVEN) {
            ends.push(GIVEN);
            if written.iter().all(|(_, remainder)| remainder[0] > 0) {
                ends.push(ALL_ABOVE_0);
            }
        }
        for k in 0..3 {
            if (0..3).all(|other| other == k || inside[other]) {
                let borders = BORDERS[k].into_iter().zip(models::borders(limits[k]));
                ends.extend(borders.filter(|(_, border)| *border == self.asked[k]).map(|(name, _)| name));
                if !inside[k] {
                    ends.push(NONE_BY[k]);
                }
            }
        }
        ends
    }

    fn file(&self) -> Option<&[u8]> {
        Some(&self.file)
    }

    fn lent(&self) -> String {
        let [state, n, r] = self.asked;
        format!("state {state}, n {n}, r {r}")
    }
}

const OTHER_VERSION: &str = "3 by the version to be moved to";
const EXACT: &str = "accepted, no byte more lent";
const MORE: &str = "accepted, more bytes lent";
const NO_BYTE: &str = "13, no byte lent";
const ONE_BYTE_SHORT: &str = "13, one byte too few";
const LATE_AND_NO_BYTE: &str = "12, no byte lent";
const LATE_AND_ELSEWHERE: &str = "12, weight on another state";
const ALL_ELSEWHERE: &str = "17, no weight on state 1";
const ONE_ELSEWHERE: &str = "17, all but one millionth on state 1";
const ONE_ON_LAST: &str = "17, all but one millionth on state 1, this on the last of more than two";
const ELSEWHERE_AND_NO_BYTE: &str = "17, no byte lent";
const OUT: &[&str] = &[EXACT, MORE, NO_BYTE, ONE_BYTE_SHORT, LATE_AND_NO_BYTE];
const ELSEWHERE: &[&str] = &[LATE_AND_ELSEWHERE, ALL_ELSEWHERE, ONE_ELSEWHERE, ONE_ON_LAST, ELSEWHERE_AND_NO_BYTE];

impl<const TO: u8> MoveInput<TO> {
    /// The bytes that the moved file has, where no row up to 12 stops the file.
    fn moved_length(&self) -> usize {
        let weights = 4 * usize::from(self.file[3]);
        if TO == 2 { self.file.len() + weights } else { self.file.len() - weights }
    }
}

impl<const TO: u8> Case for MoveInput<TO> {
    const CALL: &'static str = if TO == 2 { "to_version_2" } else { "to_version_1" };
    /// A version 1 file has no weights for row 16.
    const ROWS: &'static [u8] = if TO == 2 {
        &[1, 2, 3, 4, 5, 6, 7, 8, 9, 10, 11, 12, 13]
    } else {
        &[1, 2, 3, 4, 5, 6, 7, 8, 16, 9, 10, 11, 12, 17, 13]
    };
    const ENDS: Ends = if TO == 2 {
        &[&[VERSION_0, VERSION_3, VERSION_255, OTHER_VERSION, LENGTH_OF_2], OUT]
    } else {
        &[&[VERSION_0, VERSION_3, VERSION_255, OTHER_VERSION, LENGTH_OF_1], WRONG_SUMS, OUT, ELSEWHERE]
    };
    type Function = fn(&[u8], &mut [u8]) -> Answer;
    const PROVED: Self::Function = if TO == 2 { library::to_version_2 } else { library::to_version_1 };
    const INDEPENDENT: Self::Function = if TO == 2 { independent::to_version_2 } else { independent::to_version_1 };

    fn run(&self, call: Self::Function) -> Outcome {
        let file = Lent::holding("byte", &self.file);
        let mut out = Lent::marked("byte out", self.out);
        let answer = call(file.slice(), out.slice_mut());
        let count = answer.map_or(0, |count| count as usize);
        let written = file.unchanged().and_then(|()| Ok(vec![out.written(count)?]));
        Outcome { answer, written }
    }

    /// The moved file has the file's level and moments, and the other call moves it back to the file.
    fn accepted(&self, count: u64, written: &Written) -> Result<(), String> {
        if count != self.moved_length() as u64 {
            return Err(format!("{count} bytes, and the moved file has {}", self.moved_length()));
        }
        let moved: Vec<u8> = written[0].1.iter().map(|&byte| byte as u8).collect();
        let [of_file, of_moved] = [&self.file, &moved].map(|file| {
            let mut cells = [0; 520];
            library::calculate(file, &mut cells, &mut 0).map(|level| (level, cells))
        });
        let (Ok((level, cells)), Ok((moved_level, moved_cells))) = (of_file, of_moved) else {
            return Err("the file or the moved file is not accepted".to_string());
        };
        let moments = usize::from(self.file[3]) * usize::from(self.file[4]);
        if level != moved_level || cells[..moments] != moved_cells[..moments] {
            return Err("the moved file has another level or other moments".to_string());
        }
        let mut back = vec![0; self.file.len()];
        let other = if TO == 2 { library::to_version_1 } else { library::to_version_2 };
        let answer = other(&moved, &mut back);
        match answer {
            Ok(length) if length == self.file.len() as u64 && back == self.file => Ok(()),
            _ => Err(format!("there and back does not return the file, and answers {answer:?}")),
        }
    }

    fn ends(&self, answer: Answer, _: &Written) -> Vec<&'static str> {
        let mut ends = version_ends(&self.file, answer);
        match answer {
            Ok(count) => ends.push(if count == self.out as u64 { EXACT } else { MORE }),
            Err(3) if self.file[2] == TO => ends.push(OTHER_VERSION),
            Err(12) => {
                ends.extend((self.out == 0).then_some(LATE_AND_NO_BYTE));
                let elsewhere = start(&self.file).iter().skip(1).any(|&weight| weight > 0);
                ends.extend(elsewhere.then_some(LATE_AND_ELSEWHERE));
            }
            Err(17) => {
                let start = start(&self.file);
                let one = start[0] == MILLION - 1;
                ends.extend((start[0] == 0).then_some(ALL_ELSEWHERE));
                ends.extend(one.then_some(ONE_ELSEWHERE));
                ends.extend((one && start.len() > 2 && start.ends_with(&[1])).then_some(ONE_ON_LAST));
                ends.extend((self.out == 0).then_some(ELSEWHERE_AND_NO_BYTE));
            }
            Err(13) => {
                ends.extend((self.out == 0).then_some(NO_BYTE));
                ends.extend((self.out + 1 == self.moved_length()).then_some(ONE_BYTE_SHORT));
            }
            Err(_) => {}
        }
        ends
    }

    fn file(&self) -> Option<&[u8]> {
        Some(&self.file)
    }

    fn lent(&self) -> String {
        format!("{} bytes for the moved file", self.out)
    }
}

/// Borders of M and of R, in the order of `models::borders`, the other of the two inside.
const PRACTICE_BORDERS: [[&str; 7]; 2] = [
    ["M 0", "M 1", "M 64", "M 65", "M 2^32 + 1", "M 2^32 + 64", "M 2^64 - 1"],
    ["R 0", "R 1", "R 8", "R 9", "R 2^32 + 1", "R 2^32 + 8", "R 2^64 - 1"],
];
const BOTH_OUTSIDE: &str = "4, R outside too";
const FOUR_AND_NO_BYTE: &str = "4, no byte lent";
const FIVE_AND_NO_BYTE: &str = "5, no byte lent";
const SEEDS: [(&str, u32); 4] = [("seed 0", 0), ("seed 1", 1), ("seed 2^31", 1 << 31), ("seed 2^32 - 1", u32::MAX)];
const TIME_1: &str = "time 1";
const TIME_16: &str = "time 16";
const LOW_REWARD: &str = "first reward 1";
const HIGH_REWARD: &str = "first reward 65,536";
const LOW_RATE: &str = "a later reward or rate 0";
const HIGH_RATE: &str = "a later reward or rate 65,535";

impl PracticeInput {
    /// Whether M and R are inside.
    fn inside(&self) -> [bool; 2] {
        [(1..=64).contains(&self.states), (1..=8).contains(&self.highest)]
    }

    /// Those of the ends by M and R alone.
    fn border_ends(&self) -> Vec<&'static str> {
        let inside = self.inside();
        let mut ends = vec![];
        for (k, (number, limit)) in [(self.states, 64), (self.highest, 8)].into_iter().enumerate() {
            if inside[1 - k] {
                let borders = PRACTICE_BORDERS[k].into_iter().zip(models::borders(limit));
                ends.extend(borders.filter(|(_, border)| *border == number).map(|(name, _)| name));
            }
        }
        ends
    }

    /// Those of the ends by the seed number and the file.
    fn drawn_ends(&self, file: &[u64]) -> Vec<&'static str> {
        let word = |bytes: &[u64]| bytes.iter().fold(0, |sum, byte| sum << 8 | byte);
        let words: Vec<u64> = file[9..].chunks(4).map(word).collect();
        let reached = [
            (TIME_1, words[0] == 1),
            (TIME_16, words[0] == 16),
            (LOW_REWARD, words[1] == 1),
            (HIGH_REWARD, words[1] == 65_536),
            (LOW_RATE, words[2..].contains(&0)),
            (HIGH_RATE, words[2..].contains(&65_535)),
        ];
        let seeds = SEEDS.map(|(name, seed)| (name, self.seed == seed));
        reached.into_iter().chain(seeds).filter(|(_, reached)| *reached).map(|(name, _)| name).collect()
    }
}

impl Case for PracticeInput {
    const CALL: &'static str = "practice";
    const ROWS: &'static [u8] = &[4, 5, 13];
    const ENDS: Ends = &[
        &[EXACT, MORE, NO_BYTE, ONE_BYTE_SHORT],
        &PRACTICE_BORDERS[0],
        &PRACTICE_BORDERS[1],
        &[BOTH_OUTSIDE, FOUR_AND_NO_BYTE, FIVE_AND_NO_BYTE],
        &[SEEDS[0].0, SEEDS[1].0, SEEDS[2].0, SEEDS[3].0],
        &[TIME_1, TIME_16, LOW_REWARD, HIGH_REWARD, LOW_RATE, HIGH_RATE],
    ];
    type Function = fn(u64, u64, u32, &mut [u8]) -> Answer;
    const PROVED: Self::Function = library::practice;
    const INDEPENDENT: Self::Function = independent::practice;

    fn run(&self, call: Self::Function) -> Outcome {
        let mut out = Lent::marked("byte out", self.out);
        let answer = call(self.states, self.highest, self.seed, out.slice_mut());
        let count = answer.map_or(0, |count| count as usize);
        Outcome { answer, written: out.written(count).map(|written| vec![written]) }
    }

    /// The file is accepted with M × R cells, and can be moved to version 2.
    fn accepted(&self, count: u64, written: &Written) -> Result<(), String> {
        if count != models::practice_length(self.states) as u64 {
            return Err(format!("{count} bytes, and the file has {}", models::practice_length(self.states)));
        }
        let file: Vec<u8> = written[0].1.iter().map(|&byte| byte as u8).collect();
        let cells = (self.states * self.highest) as usize;
        let moved = file.len() + 4 * self.states as usize;
        let as_input = Input { file: file.clone(), cells }.run(library::calculate);
        as_input.answer.map_err(|row| format!("calculate refuses the file by row {row}"))?;
        at_most_one(&as_input.written?[0].1)?;
        match (MoveInput::<2> { file, out: moved }).run(library::to_version_2).answer {
            Ok(count) if count == moved as u64 => Ok(()),
            answer => Err(format!("to_version_2 answers {answer:?} of the file")),
        }
    }

    fn ends(&self, answer: Answer, written: &Written) -> Vec<&'static str> {
        let mut ends = self.border_ends();
        match answer {
            Ok(count) => {
                ends.push(if count == self.out as u64 { EXACT } else { MORE });
                ends.extend(self.drawn_ends(&written[0].1));
            }
            Err(4) => {
                ends.extend((self.inside() == [false; 2]).then_some(BOTH_OUTSIDE));
                ends.extend((self.out == 0).then_some(FOUR_AND_NO_BYTE));
            }
            Err(5) => ends.extend((self.out == 0).then_some(FIVE_AND_NO_BYTE)),
            Err(_) => {
                ends.extend((self.out == 0).then_some(NO_BYTE));
                ends.extend((self.out + 1 == models::practice_length(self.states)).then_some(ONE_BYTE_SHORT));
            }
        }
        ends
    }

    fn file(&self) -> Option<&[u8]> {
        None
    }

    fn lent(&self) -> String {
        let PracticeInput { states, highest, seed, out } = self;
        format!("M {states}, R {highest}, seed number {seed}, {out} bytes for the file")
    }
}
