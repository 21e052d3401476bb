//! Compares the proved calls, linked from libkuldrepso.a, with an independent u128 calculation, input by input: the
//! answer and every element of every lent slice, also those that must stay as they were; a number to be written to is
//! lent as a slice of one. `tests/rust/run` builds and runs this.
//!
//!     compare [--seed S] [--count N] [--save DIR] [FILE..]

mod calls;
mod independent;
mod lent;
mod library;
mod models;

use calls::{Answer, Case, Outcome};
use library::{GIVEN, NONE};
use models::{Chance, Fields, Input, MoveInput, PracticeInput, RemaindersInput, SeriesInput};
use std::collections::BTreeMap;
use std::panic::{catch_unwind, AssertUnwindSafe};
use std::path::{Path, PathBuf};
use std::process::exit;

const A: [u8; 17] = [0, 0x0F, 1, 1, 1, 0, 0, 0x27, 0x10, 0, 0, 0, 1, 0, 0, 0, 5];
const B: [u8; 29] = [
    0, 0x1B, 1, 2, 2, 5, 0xF5, 0xE1, 0, 0, 0, 0, 1, 0, 0, 0, 1, 0, 0, 0, 0, 0, 0x0F, 0x42, 0x40, 0, 0x0F, 0x42, 0x40,
];
const A_MOMENTS: [u64; 1] = [1_000_000_000_000];
/// With document 02's S-1.
const B_MOMENTS: [u64; 4] = [718_750_000_000, 612_500_000_000, 281_250_000_000, 175_000_000_000];

/// At the times 1 and 2. With q = 2 the level is 4: the weights 1, 2, 2, 4/3 and 2/3 sum to 7.
const B_TIMES_1_AND_2: [u64; 8] = [
    718_750_000_000,
    612_500_000_000,
    281_250_000_000,
    175_000_000_000,
    628_571_428_571,
    476_190_476_190,
    371_428_571_428,
    219_047_619_047,
];

/// A in version 2.
const A2: [u8; 21] = [0, 0x13, 2, 1, 1, 0, 0, 0x27, 0x10, 0, 0, 0, 1, 0, 0x0F, 0x42, 0x40, 0, 0, 0, 5];
const A2_FIGURES: [u64; 2] = [1_000_000_000_000; 2];
/// B in version 2 with the weights 250,000 and 750,000.
const B2: [u8; 37] = [
    0, 0x23, 2, 2, 2, 5, 0xF5, 0xE1, 0, 0, 0, 0, 1, 0, 3, 0xD0, 0x90, 0, 0x0B, 0x71, 0xB0, 0, 0, 0, 1, 0, 0, 0, 0, 0,
    0x0F, 0x42, 0x40, 0, 0x0F, 0x42, 0x40,
];
/// The start figures by hand: a quarter of state 1's moment and three quarters of state 2's.
const B2_FIGURES: [u64; 6] =
    [718_750_000_000, 612_500_000_000, 281_250_000_000, 175_000_000_000, 390_625_000_000, 284_375_000_000];

/// Practice files by hand from document 02's S-6, whose arithmetic is in tests/c/calls.c: of seed number 0 with M = R = 1,
/// of 1 with M = R = 2, and of 2^32 − 1 with M = 2 and R = 1.
const DEALT_0: [u8; 17] = [0, 0x0F, 1, 1, 1, 0, 0, 0x27, 0x10, 0, 0, 0, 4, 0, 0, 0x47, 0x51];
const DEALT_1: [u8; 29] = [
    0, 0x1B, 1, 2, 2, 0, 0, 0x27, 0x10, 0, 0, 0, 4, 0, 0, 0x5E, 0x89, 0, 0, 0x81, 0x16, 0, 0, 0xB4, 0x73, 0, 0, 0x0C,
    0xF0,
];
const DEALT_LAST: [u8; 29] = [
    0, 0x1B, 1, 2, 1, 0, 0, 0x27, 0x10, 0, 0, 0, 4, 0, 0, 0x30, 0x18, 0, 0, 0x22, 0x83, 0, 0, 0xA1, 0x7F, 0, 0, 0xB7,
    0xB5,
];

/// What was compared, and how the inputs ended.
struct Tally {
    save: PathBuf,
    inputs: usize,
    /// For each call and each way to end, a row's number for one: how many inputs came to it.
    ends: BTreeMap<(&'static str, String), usize>,
}

impl Tally {
    /// Calls both on one input. On a difference says what differs, saves the file and ends the run.
    fn compare<C: Case>(&mut self, name: &str, input: &C) {
        let (answer, written) = match catch_unwind(AssertUnwindSafe(|| calls::both(input))) {
            Ok(Ok(outcome)) => outcome,
            Ok(Err(what)) => self.stop(name, input, &what),
            Err(_) => self.stop(name, input, "a panic"),
        };
        self.inputs += 1;
        let end = match answer {
            Ok(_) => "accepted".to_string(),
            Err(row) => row.to_string(),
        };
        for end in input.ends(answer, &written).into_iter().map(str::to_string).chain([end]) {
            *self.ends.entry((C::CALL, end)).or_default() += 1;
        }
    }

    fn stop<C: Case>(&self, name: &str, input: &C, what: &str) -> ! {
        let saved = input.file().map_or(String::new(), |file| self.saved(file));
        let (call, lent) = (C::CALL, input.lent());
        println!("rust comparison: input {} ({call}, {name}, {lent}): {what}{saved}", self.inputs + 1);
        exit(1);
    }

    /// Saves the file of a difference; where it is, in words.
    fn saved(&self, content: &[u8]) -> String {
        let file = self.save.join("difference.model");
        match std::fs::write(&file, content) {
            Ok(()) => format!("; the file is saved as {}", file.display()),
            Err(error) => format!("; the file could not be saved: {error}"),
        }
    }

    /// The papers' own answer for an input, of both calculations, with what is written to each lent slice.
    fn hand_checked<C: Case>(&mut self, name: &str, input: &C, answer: Answer, written: &[&[u64]]) {
        let paper = Outcome { answer, written: Ok(written.iter().map(|words| ("", words.to_vec())).collect()) };
        match input.run(C::PROVED).compare(&paper, "by the paper") {
            Ok(()) => self.compare(name, input),
            Err(what) => self.stop(name, input, &what),
        }
    }

    /// An input that the papers accept, without its numbers.
    fn accepts<C: Case>(&mut self, name: &str, input: &C) {
        if input.run(C::PROVED).answer.is_err() {
            self.stop(name, input, "the paper accepts it");
        }
        self.compare(name, input);
    }

    fn count(&self, call: &'static str, end: &str) -> usize {
        self.ends.get(&(call, end.to_string())).copied().unwrap_or(0)
    }

    /// Prints how the inputs of a call ended. All its ends must have been reached.
    fn print<C: Case>(&self, seed: u64) {
        let count = |end: &str| self.count(C::CALL, end);
        let rows: Vec<String> = C::ROWS.iter().map(u8::to_string).collect();
        let refused: Vec<String> = rows.iter().map(|row| format!("{row}: {}", count(row))).collect();
        let accepted = count("accepted");
        let inputs = accepted + rows.iter().map(|row| count(row)).sum::<usize>();
        let [inputs, accepted] = [inputs, accepted].map(grouped);
        let (call, refused) = (C::CALL, refused.join(", "));
        println!("seed {seed}, {call}: {inputs} inputs, {accepted} accepted; refused by row {refused}");
        for group in C::ENDS {
            let ends: Vec<String> = group.iter().map(|end| format!("{end}: {}", count(end))).collect();
            println!("  of them {}", ends.join("; "));
        }
        let mut ends = rows.iter().map(String::as_str).chain(C::ENDS.concat()).chain(["accepted"]);
        if let Some(end) = ends.find(|end| count(end) == 0) {
            println!("rust comparison: no input of {} came to the end '{end}'", C::CALL);
            exit(1);
        }
    }
}

/// A file with the four bytes from `at` put to `word`.
fn with(file: &[u8], at: usize, word: u32) -> Vec<u8> {
    let mut file = file.to_vec();
    file[at..at + 4].copy_from_slice(&word.to_be_bytes());
    file
}

/// A file with one byte changed.
fn with_byte(file: &[u8], at: usize, byte: u8) -> Vec<u8> {
    let mut file = file.to_vec();
    file[at] = byte;
    file
}

/// B in version 2 with these weights.
fn with_start(first: u32, second: u32) -> Vec<u8> {
    with(&with(&B2, 13, first), 17, second)
}

/// Document 01's small example of each row from 1 to 11, its hand-checked files that one of these rows stops, and others;
/// then such files of version 2.
fn stopped() -> Vec<(&'static str, Vec<u8>, u8)> {
    vec![
        ("the empty file", vec![], 1),
        ("A without its last byte", A[..16].to_vec(), 2),
        ("A, version 3", with_byte(&A, 2, 3), 3),
        ("A, no state", with_byte(&A, 3, 0), 4),
        ("A, highest moment 9", with_byte(&A, 4, 9), 5),
        ("A, 2 states", with_byte(&A, 3, 2), 6),
        ("A, tolerance 0", with(&A, 5, 0), 7),
        ("A, time 0", with(&A, 9, 0), 8),
        ("A, reward 1,000,001", with(&A, 13, 1_000_001), 9),
        ("A, reward 0", with(&A, 13, 0), 10),
        ("B, first rate 10,000,001", with(&B, 21, 10_000_001), 11),
        ("B, both rewards 0", with(&B, 13, 0), 10),
        ("B, version 9 and no state", with_byte(&with_byte(&B, 2, 9), 3, 0), 3),
        ("B, tolerance 100,000,001", with(&B, 5, 100_000_001), 7),
        ("B, version 0", with_byte(&B, 2, 0), 3),
        ("A, version 2", with_byte(&A, 2, 2), 6),
        ("B, version 2", with_byte(&B, 2, 2), 6),
        ("A2 without its last byte", A2[..20].to_vec(), 2),
        ("A2, version 0", with_byte(&A2, 2, 0), 3),
        ("A2, version 3", with_byte(&A2, 2, 3), 3),
        ("A2, version 255", with_byte(&A2, 2, 255), 3),
        ("A2, no state", with_byte(&A2, 3, 0), 4),
        ("A2, highest moment 9", with_byte(&A2, 4, 9), 5),
        ("A2, version 1", with_byte(&A2, 2, 1), 6),
        ("B2, version 1", with_byte(&B2, 2, 1), 6),
        ("A2, 2 states", with_byte(&A2, 3, 2), 6),
        ("A2, tolerance 0", with(&A2, 5, 0), 7),
        ("A2, time 0", with(&A2, 9, 0), 8),
        ("A2, weight 999,999", with(&A2, 13, 999_999), 16),
        ("A2, weight 1,000,001", with(&A2, 13, 1_000_001), 16),
        ("A2, weight 0", with(&A2, 13, 0), 16),
        ("A2, weight 2^31 + 1,000,000", with(&A2, 13, (1 << 31) + 1_000_000), 16),
        ("B2, weights one below", with_start(250_000, 749_999), 16),
        ("B2, weights one above", with_start(250_001, 750_000), 16),
        ("B2, weights 2^32 - 1", with_start(u32::MAX, u32::MAX), 16),
        ("B2, weights right in their low 32 bits", with_start(u32::MAX, 1_000_001), 16),
        ("A2, reward 1,000,001", with(&A2, 17, 1_000_001), 9),
        ("A2, reward 0", with(&A2, 17, 0), 10),
        ("B2, first rate 10,000,001", with(&B2, 29, 10_000_001), 11),
    ]
}

/// The same, and the example of row 12 in both versions, for calls at the file's own time.
fn stopped_at_own_time() -> Vec<(&'static str, Vec<u8>, u8)> {
    let mut files = stopped();
    files.push(("B, time 257", with(&B, 9, 257), 12));
    files.push(("B2, time 257", with(&B2, 9, 257), 12));
    files
}

/// Rows that `broken` cannot make hold together: both are about the time, or about one reward.
const APART: [[u8; 2]; 2] = [[8, 12], [9, 10]];

/// B, in version 2 with all weight on state 1, changed so that those of the two rows hold that are about the file alone.
fn broken(version: u8, rows: [u8; 2]) -> Vec<u8> {
    let mut fields = Fields {
        version,
        states: 2,
        highest: 2,
        tolerance: 100_000_000,
        time: 1,
        start: if version == 2 { models::start_on(0, 2) } else { vec![] },
        rewards: vec![1, 0],
        rates: vec![1_000_000; 2],
    };
    for row in rows {
        match row {
            3 => fields.version = 9,
            4 => fields.states = 0,
            5 => fields.highest = 9,
            6 => fields.rates.push(0),
            7 => fields.tolerance = 0,
            8 => fields.time = 0,
            9 => fields.rewards[0] = 1_000_001,
            10 => fields.rewards.fill(0),
            11 => fields.rates[0] = 10_000_001,
            12 => fields.time = u32::MAX,
            16 => fields.start[0] += 1,
            17 => fields.start = vec![fields.start[0] - 1, 1],
            _ => {}
        }
    }
    let mut file = fields.bytes();
    if rows.contains(&2) {
        file.push(0);
    }
    if rows.contains(&1) {
        file.truncate(12);
    }
    file
}

/// Each two rows of the call's table hold together, and the first in its order is to be told. `input` makes the rows hold
/// that are not about the file alone.
fn two_rows<C: Case>(tally: &mut Tally, version: u8, input: impl Fn(Vec<u8>, [u8; 2]) -> C) {
    let applies = |row: &u8| version == 2 || ![16, 17].contains(row);
    let rows: Vec<u8> = C::ROWS.iter().copied().filter(applies).collect();
    for (at, &first) in rows.iter().enumerate() {
        for &second in &rows[at + 1..] {
            let both = [first, second];
            if !APART.contains(&both) {
                let name = format!("rows {first} and {second} in version {version}");
                tally.hand_checked(&name, &input(broken(version, both), both), Err(first), &[]);
            }
        }
    }
}

/// `number`, or one less where row 13 is to hold.
fn or_short(number: usize, rows: [u8; 2]) -> usize {
    if rows.contains(&13) { number - 1 } else { number }
}

/// Files of version 2, of 1 state to 64, with starting weights of every kind: sums of 1,000,000, and others.
fn starts<C: Case>(tally: &mut Tally, chance: &mut Chance, input: impl Fn(&Fields) -> C) {
    for states in [1, 2, 3, 7, 64] {
        let mut fields = models::accepted(chance, 2, states, states % 8 + 1);
        fields.time = 1;
        let count = usize::from(states);
        let mut right: Vec<Vec<u32>> = (0..count).map(|state| models::start_on(state, count)).collect();
        right.extend((0..20).map(|_| models::start_of(chance, 1_000_000, states)));
        for start in right {
            fields.start = start;
            if C::ROWS.contains(&17) && fields.start[0] != 1_000_000 {
                tally.hand_checked("weight elsewhere", &input(&fields), Err(17), &[]);
            } else {
                tally.accepts("weights that sum to 1,000,000", &input(&fields));
            }
        }
        for sum in models::wrong_sums(states) {
            for _ in 0..4 {
                fields.start = models::start_of(chance, sum, states);
                tally.hand_checked(&format!("weights that sum to {sum}"), &input(&fields), Err(16), &[]);
            }
        }
    }
}

/// The files of document 01: its examples of the table, and its hand-checked list; and such files of version 2.
fn papers(tally: &mut Tally) {
    let input = |file: &[u8], cells| Input { file: file.to_vec(), cells };
    tally.hand_checked("A", &input(&A, 1), Ok(1), &[&A_MOMENTS, &[1]]);
    tally.hand_checked("B", &input(&B, 520), Ok(3), &[&B_MOMENTS, &[12]]);
    tally.hand_checked("B with 4 cells", &input(&B, 4), Ok(3), &[&B_MOMENTS, &[12]]);
    tally.hand_checked("A2", &input(&A2, 2), Ok(1), &[&A2_FIGURES, &[1]]);
    tally.hand_checked("B2", &input(&B2, 520), Ok(3), &[&B2_FIGURES, &[12]]);
    tally.hand_checked("B2 with 6 cells", &input(&B2, 6), Ok(3), &[&B2_FIGURES, &[12]]);
    for (name, file, row) in stopped_at_own_time() {
        tally.hand_checked(name, &input(&file, 520), Err(row), &[&[], &[]]);
        tally.hand_checked(name, &input(&file, 0), Err(row), &[&[], &[]]);
    }
    tally.hand_checked("B with 3 cells", &input(&B, 3), Err(13), &[&[], &[]]);
    tally.hand_checked("A2 with 1 cell", &input(&A2, 1), Err(13), &[&[], &[]]);
    for cells in 0..6 {
        tally.hand_checked("B2 with too few cells", &input(&B2, cells), Err(13), &[&[], &[]]);
    }
    for (name, file) in [
        ("B, time 256", with(&B, 9, 256)),
        ("B, first rate 10,000,000", with(&B, 21, 10_000_000)),
        ("B, tolerance 1", with(&B, 5, 1)),
    ] {
        tally.accepts(name, &input(&file, 4));
    }
    for version in [1, 2] {
        let cells = if version == 2 { 6 } else { 4 };
        two_rows(tally, version, |file, rows| Input { file, cells: or_short(cells, rows) });
    }
}

/// Times for B where those of the two rows hold that are about a list.
fn broken_times(rows: [u8; 2]) -> Vec<u32> {
    let mut times = if rows.contains(&14) { vec![1, 2, 3, 4, 5, 6, 7, 8, 9] } else { vec![1, 2] };
    if rows.contains(&12) {
        *times.last_mut().expect("a time") = 257;
    }
    if rows.contains(&15) {
        times[0] = times[1];
    }
    times
}

/// Document 02's S-3 on the same files: each row, and of each two that its order decides between the first.
fn series_papers(tally: &mut Tally) {
    let input = |file: &[u8], times: &[u32], levels, cells| SeriesInput {
        file: file.to_vec(),
        times: times.to_vec(),
        levels,
        cells,
    };
    let eight = [1, 2, 3, 4, 5, 6, 7, 8];
    let nine = [1, 2, 3, 4, 5, 6, 7, 8, 9];
    tally.hand_checked("A", &input(&A, &[1], 1, 1), Ok(1), &[&[1], &A_MOMENTS, &[1]]);
    tally.hand_checked("A, eight times", &input(&A, &eight, 8, 8), Ok(8), &[&[1; 8], &[A_MOMENTS[0]; 8], &[1]]);
    tally.hand_checked("B", &input(&B, &[1], 1, 4), Ok(1), &[&[3], &B_MOMENTS, &[12]]);
    tally.hand_checked("B, times 1 and 2", &input(&B, &[1, 2], 2, 8), Ok(2), &[&[3, 4], &B_TIMES_1_AND_2, &[16]]);
    tally.hand_checked("B, own time 257", &input(&with(&B, 9, 257), &[1], 9, 99), Ok(1), &[&[3], &B_MOMENTS, &[12]]);
    let late = with(&B, 9, u32::MAX);
    tally.hand_checked("B, own time 2^32 − 1", &input(&late, &[1], 1, 4), Ok(1), &[&[3], &B_MOMENTS, &[12]]);
    tally.hand_checked("A2, eight times", &input(&A2, &eight, 8, 16), Ok(8), &[&[1; 8], &[A2_FIGURES[0]; 16], &[1]]);
    tally.hand_checked("B2", &input(&B2, &[1], 1, 6), Ok(1), &[&[3], &B2_FIGURES, &[12]]);
    let late = with(&B2, 9, 257);
    tally.hand_checked("B2, own time 257", &input(&late, &[1], 9, 99), Ok(1), &[&[3], &B2_FIGURES, &[12]]);

    for (name, file, row) in stopped() {
        for times in [&[1][..], &[], &[0], &nine, &[1, 1], &[u32::MAX]] {
            // a first time of 0 is row 8
            let row = if times.first() == Some(&0) { row.min(8) } else { row };
            for (levels, cells) in [(8, 4_096), (0, 0)] {
                tally.hand_checked(name, &input(&file, times, levels, cells), Err(row), &[&[], &[], &[]]);
            }
        }
    }
    let early = with(&B, 9, 0);
    let rows: [(&str, &[u8], &[u32], usize, usize, u8); 26] = [
        ("own time 0", &early, &[1], 1, 4, 8),
        ("own time 0, no time", &early, &[], 1, 4, 8),
        ("own time 0, nine times", &early, &nine, 9, 36, 8),
        ("first time 0", &B, &[0], 1, 4, 8),
        ("first time 0, the others rising", &B, &[0, 1, 2], 3, 12, 8),
        ("first time 0, nine times", &B, &[0; 9], 9, 36, 8),
        ("no time", &B, &[], 1, 4, 14),
        ("no time, no level, no cell", &B, &[], 0, 0, 14),
        ("nine times", &B, &nine, 9, 36, 14),
        ("nine equal times", &B, &[1; 9], 9, 36, 14),
        ("nine times, the last too late", &B, &[1, 2, 3, 4, 5, 6, 7, 8, 257], 9, 36, 14),
        ("equal times", &B, &[1, 1], 2, 8, 15),
        ("falling times", &B, &[2, 1], 2, 8, 15),
        ("a later time 0", &B, &[1, 0], 2, 8, 15),
        ("eight times, the last equal", &B, &[1, 2, 3, 4, 5, 6, 7, 7], 8, 32, 15),
        ("equal times, too late", &B, &[257, 257], 2, 8, 15),
        ("falling to a time in range", &B, &[257, 256], 2, 8, 15),
        ("one time, too late", &B, &[257], 1, 4, 12),
        ("the last too late", &B, &[1, 256, 257], 3, 12, 12),
        ("the last too late, no level, no cell", &B, &[1, u32::MAX], 0, 0, 12),
        ("too few levels", &B, &[1, 2], 1, 8, 13),
        ("too few cells", &B, &[1, 2], 2, 7, 13),
        ("too few of both", &B, &[1, 2], 0, 0, 13),
        ("version 2, too few levels", &B2, &[1, 2], 1, 12, 13),
        ("version 2, too few cells", &B2, &[1, 2], 2, 11, 13),
        ("version 2, cells for the moments alone", &B2, &[1, 2], 2, 8, 13),
    ];
    for (name, file, times, levels, cells, row) in rows {
        tally.hand_checked(&format!("B, {name}"), &input(file, times, levels, cells), Err(row), &[&[], &[], &[]]);
    }
    for version in [1, 2] {
        let block = if version == 2 { 6 } else { 4 };
        two_rows(tally, version, |file, rows| {
            let times = broken_times(rows);
            SeriesInput { file, levels: times.len(), cells: or_short(times.len() * block, rows), times }
        });
    }
}

/// B with rewards 3 and 1, and rates of 5 and 4 millionths an hour: N is 1, E is 5 and F is 3.
fn uneven() -> Vec<u8> {
    [(13, 3), (17, 1), (21, 5), (25, 4)].into_iter().fold(B.to_vec(), |file, (at, word)| with(&file, at, word))
}

/// Document 02's S-4 on the same files. The remainders are worked out by hand from document 01's steps.
fn remainders_papers(tally: &mut Tally) {
    let input = |file: &[u8], asked| RemaindersInput { file: file.to_vec(), asked };
    let given: [(&str, &[u8], [u64; 3], [u64; 3]); 20] = [
        ("A", &A, [1, 1, 1], [0, 0, 0]),
        ("B", &B, [1, 1, 1], [0, 0, 0]),
        ("B", &B, [2, 1, 1], [0, 0, 0]),
        ("B", &B, [1, 1, 2], [0, 0, 1]),
        ("B", &B, [2, 1, 2], [0, 0, 1]),
        ("B", &B, [1, 2, 1], [0, 0, 2]),
        ("B", &B, [2, 2, 1], [0, 0, 1]),
        ("B", &B, [1, 2, 2], [0, 0, 2]),
        ("B", &B, [2, 2, 2], [0, 0, 2]),
        ("B", &B, [1, 3, 1], [0, 0, 3]),
        ("B", &B, [2, 3, 1], [0, 0, 2]),
        ("B", &B, [1, 3, 2], [0, 0, 1]),
        ("B", &B, [2, 3, 2], [0, 0, 2]),
        ("B, uneven", &uneven(), [1, 1, 1], [0, 0, 1]),
        ("B, uneven", &uneven(), [2, 1, 1], [3, 1, 1]),
        ("B, uneven", &uneven(), [1, 1, 2], [0, 0, 0]),
        ("B, uneven", &uneven(), [2, 1, 2], [1, 2, 2]),
        ("A2", &A2, [1, 1, 1], [0, 0, 0]),
        ("B2", &B2, [1, 3, 1], [0, 0, 3]),
        ("B2", &B2, [2, 3, 2], [0, 0, 2]),
    ];
    for (name, file, asked, [mean, share, mix]) in given {
        tally.hand_checked(name, &input(file, asked), Ok(GIVEN), &[&[mean], &[share], &[mix]]);
    }
    for (name, file, [states, level, highest]) in
        [("A", &A[..], [1, 1, 1]), ("B", &B, [2, 3, 2]), ("B, uneven", &uneven(), [2, 1, 2]), ("B2", &B2, [2, 3, 2])]
    {
        for outside in [0, 9, 1 << 32, (1 << 32) + 1, u64::MAX] {
            for asked in [[outside, 1, 1], [1, outside, 1], [1, 1, outside], [outside; 3]] {
                tally.hand_checked(name, &input(file, asked), Ok(NONE), &[&[], &[], &[]]);
            }
        }
        for asked in [[states + 1, level, highest], [states, level + 1, highest], [states, level, highest + 1]] {
            tally.hand_checked(name, &input(file, asked), Ok(NONE), &[&[], &[], &[]]);
        }
    }
    for (name, file, row) in stopped_at_own_time() {
        for asked in [[1, 1, 1], [0, 1, 1], [1, 0, 1], [1, 1, 0], [0, 0, 0], [3, 4, 3], [u64::MAX; 3]] {
            tally.hand_checked(name, &input(&file, asked), Err(row), &[&[], &[], &[]]);
        }
    }
    for version in [1, 2] {
        for asked in [[1; 3], [0; 3]] {
            two_rows(tally, version, |file, _| RemaindersInput { file, asked });
        }
    }
}

/// The stopped files in a move to version TO: one that is not of the other version is stopped by row 3 at the latest.
fn moves_stopped<const TO: u8>(tally: &mut Tally) {
    for (name, file, row) in stopped_at_own_time() {
        let row = if row > 3 && file[2] != MoveInput::<TO>::FROM { 3 } else { row };
        for out in [0, 64] {
            tally.hand_checked(name, &MoveInput::<TO> { file: file.clone(), out }, Err(row), &[&[]]);
        }
    }
}

/// A file, and the same moved to version TO as document 02's S-5 has it, with every number of bytes lent.
fn moved_pair<const TO: u8>(tally: &mut Tally, name: &str, file: &[u8], moved: &[u8]) {
    let words: Vec<u64> = moved.iter().map(|&byte| u64::from(byte)).collect();
    for out in 0..=moved.len() + 4 {
        let input = MoveInput::<TO> { file: file.to_vec(), out };
        if out < moved.len() {
            tally.hand_checked(name, &input, Err(13), &[&[]]);
        } else {
            tally.hand_checked(name, &input, Ok(moved.len() as u64), &[&words]);
        }
    }
}

fn to_version_2_papers(tally: &mut Tally) {
    moved_pair::<2>(tally, "A", &A, &A2);
    moved_pair::<2>(tally, "B", &B, &with_start(1_000_000, 0));
    moves_stopped::<2>(tally);
    for file in [&A2[..], &B2, &with_start(1_000_000, 0)] {
        tally.hand_checked("of version 2", &MoveInput::<2> { file: file.to_vec(), out: 64 }, Err(3), &[&[]]);
    }
    two_rows(tally, 1, |file, rows| MoveInput::<2> { file, out: or_short(37, rows) });
}

fn to_version_1_papers(tally: &mut Tally) {
    let input = |file: &[u8], out| MoveInput::<1> { file: file.to_vec(), out };
    moved_pair::<1>(tally, "A2", &A2, &A);
    moved_pair::<1>(tally, "B2, all weight on state 1", &with_start(1_000_000, 0), &B);
    moves_stopped::<1>(tally);
    for file in [&A[..], &B] {
        tally.hand_checked("of version 1", &input(file, 64), Err(3), &[&[]]);
    }
    for (first, second) in [(250_000, 750_000), (999_999, 1), (0, 1_000_000)] {
        let file = with_start(first, second);
        for out in [0, 28, 29, 37, 64] {
            tally.hand_checked("weight on state 2", &input(&file, out), Err(17), &[&[]]);
            tally.hand_checked("weight on state 2, time 257", &input(&with(&file, 9, 257), out), Err(12), &[&[]]);
        }
    }
    two_rows(tally, 2, |file, rows| MoveInput::<1> { file, out: or_short(29, rows) });
}

/// Document 02's S-6: the files by hand with every number of bytes lent, then each row of its table, with enough bytes and
/// with none, and of each two that hold the first.
fn practice_papers(tally: &mut Tally) {
    for (states, highest, seed, file) in [(1, 1, 0, &DEALT_0[..]), (2, 2, 1, &DEALT_1), (2, 1, u32::MAX, &DEALT_LAST)] {
        let words: Vec<u64> = file.iter().map(|&byte| u64::from(byte)).collect();
        for out in 0..=file.len() + 4 {
            let input = PracticeInput { states, highest, seed, out };
            if out < file.len() {
                tally.hand_checked("by hand", &input, Err(13), &[&[]]);
            } else {
                tally.hand_checked("by hand", &input, Ok(file.len() as u64), &[&words]);
            }
        }
    }
    let outside = [0, 65, 1 << 32, (1 << 32) + 3, u64::MAX];
    for (seed, out) in [(0, 16_653), (1, 17), (1 << 31, 16), (u32::MAX, 0)] {
        for states in outside {
            for highest in [1, 8, 9].into_iter().chain(outside) {
                let input = PracticeInput { states, highest, seed, out };
                tally.hand_checked("M outside", &input, Err(4), &[&[]]);
            }
        }
        for states in [1, 9, 64] {
            for highest in [9].into_iter().chain(outside) {
                let input = PracticeInput { states, highest, seed, out };
                tally.hand_checked("R outside", &input, Err(5), &[&[]]);
            }
        }
    }
}

/// Longer than the length field can say: the field agrees with the low 16 bits of the count.
fn too_long(file: &[u8]) -> Vec<u8> {
    let mut file = file.to_vec();
    file.resize(file.len() + 65_536, 0);
    file
}

/// Every value of one byte before the rewards at a time, and every cut.
fn headers_and_cuts<C: Case>(tally: &mut Tally, file: &[u8], input: impl Fn(Vec<u8>) -> C) {
    let header = if file[2] == 2 { 13 + 4 * usize::from(file[3]) } else { 13 };
    for at in 0..header {
        for byte in 0..=255 {
            tally.compare(&format!("byte {at} is {byte}"), &input(with_byte(file, at, byte)));
        }
    }
    for length in 0..file.len() {
        tally.compare(&format!("cut to {length} bytes"), &input(file[..length].to_vec()));
    }
}

/// Every value of one thing at a time: a byte before the rewards, where a file is cut, how many cells are lent.
fn sweeps(tally: &mut Tally, chance: &mut Chance) {
    for file in [&A[..], &B, &A2, &B2] {
        headers_and_cuts(tally, file, |file| Input { file, cells: 24 });
    }
    for k in 0..24 {
        let (states, highest) = (chance.between(1, 6) as u8, chance.between(1, 8) as u8);
        let fields = models::accepted(chance, 1 + k % 2, states, highest);
        for cells in 0..=fields.block() + 3 {
            tally.compare("every number of cells", &Input { file: fields.bytes(), cells });
        }
    }
    for file in [&B[..], &B2] {
        tally.compare("65,536 bytes too many", &Input { file: too_long(file), cells: 520 });
    }
    starts(tally, chance, |fields| Input { file: fields.bytes(), cells: fields.block() });
}

/// Lists of 0 to 10 times with every number of levels and the cells about every number of blocks; every value of a byte
/// before the rewards, every cut; every time for B.
fn series_sweeps(tally: &mut Tally, chance: &mut Chance) {
    for (file, block) in [(&A[..], 1), (&B, 4), (&A2, 2), (&B2, 6)] {
        for count in 0..=10 {
            let times = models::rising(chance, count, 256);
            for levels in 0..=count + 2 {
                let cells = (0..=count).flat_map(|k| [k * block, k * block + 1, k * block + block - 1]);
                for cells in cells {
                    let input = SeriesInput { file: file.to_vec(), times: times.clone(), levels, cells };
                    tally.compare("every number of levels", &input);
                }
            }
        }
        headers_and_cuts(tally, file, |file| SeriesInput { file, times: vec![1, 3], levels: 3, cells: 26 });
    }
    for (file, block) in [(&B[..], 4), (&B2, 6)] {
        for time in 0..=258 {
            let input = SeriesInput { file: file.to_vec(), times: vec![time], levels: 1, cells: block };
            tally.compare("every time", &input);
            let times = vec![time, time + 1, time + 2];
            tally.compare("every time and the next two", &SeriesInput { times, levels: 3, cells: 3 * block, ..input });
        }
        let input = SeriesInput { file: too_long(file), times: vec![1], levels: 1, cells: block };
        tally.compare("65,536 bytes too many", &input);
    }
    starts(tally, chance, |fields| SeriesInput {
        file: fields.bytes(),
        times: vec![1, 2],
        levels: 2,
        cells: 2 * fields.block(),
    });
}

/// Each of these states with each n and each r.
fn remainders_at_each(tally: &mut Tally, name: &str, file: &[u8], [states, ns, rs]: [Vec<u64>; 3]) {
    for &state in &states {
        for &n in &ns {
            for &r in &rs {
                tally.compare(name, &RemaindersInput { file: file.to_vec(), asked: [state, n, r] });
            }
        }
    }
}

fn remainders_at_borders(tally: &mut Tally, name: &str, file: &[u8], limits: [u64; 3]) {
    remainders_at_each(tally, name, file, limits.map(|limit| models::borders(limit).to_vec()));
}

/// Every state, n and r from 0 to one past its limit.
fn remainders_up_to_limits(tally: &mut Tally, file: &[u8]) {
    let numbers = models::limits(file).map(|limit| (0..=limit + 1).collect());
    remainders_at_each(tally, "every state, n and r", file, numbers);
}

/// A model of 1 to 3 states with a level of at most 24.
fn low_level(chance: &mut Chance) -> Vec<u8> {
    loop {
        let (states, highest) = (chance.between(1, 3) as u8, chance.between(1, 8) as u8);
        let version = models::either_version(chance);
        let file = models::accepted(chance, version, states, highest).bytes();
        let [_, level, _] = models::limits(&file);
        if level <= 24 {
            return file;
        }
    }
}

/// Every value of a byte before the rewards, every cut; state, n and r at their borders, for stopped files too; every
/// state, n and r of files with a low level.
fn remainders_sweeps(tally: &mut Tally, chance: &mut Chance) {
    for file in [&A[..], &B, &A2, &B2] {
        let asked = models::limits(file);
        headers_and_cuts(tally, file, |file| RemaindersInput { file, asked });
        remainders_at_borders(tally, "borders", file, asked);
        remainders_up_to_limits(tally, file);
    }
    for (name, file, _) in stopped_at_own_time() {
        remainders_at_borders(tally, name, &file, models::limits(&B));
    }
    for k in 0..12 {
        let (states, highest) = (chance.between(1, 6) as u8, chance.between(1, 8) as u8);
        let file = models::accepted(chance, 1 + k % 2, states, highest).bytes();
        remainders_at_borders(tally, "borders", &file, models::limits(&file));
    }
    for _ in 0..8 {
        remainders_up_to_limits(tally, &low_level(chance));
    }
    for file in [&B[..], &B2] {
        tally.compare("65,536 bytes too many", &RemaindersInput { file: too_long(file), asked: [1, 1, 1] });
    }
    starts(tally, chance, |fields| RemaindersInput { file: fields.bytes(), asked: [1, 1, 1] });
}

/// Every value of a byte before the rewards, every cut; every number of bytes lent for the moved file.
fn move_sweeps<const TO: u8>(tally: &mut Tally, chance: &mut Chance, files: [&[u8]; 2]) {
    for file in files {
        headers_and_cuts(tally, file, |file| MoveInput::<TO> { file, out: 40 });
        tally.compare("65,536 bytes too many", &MoveInput::<TO> { file: too_long(file), out: 66_000 });
    }
    for _ in 0..12 {
        let (states, highest) = (chance.between(1, 6) as u8, chance.between(1, 8) as u8);
        let whole = models::whole_move::<TO>(chance, states, highest);
        for out in 0..=whole.out + 3 {
            tally.compare("every number of bytes", &MoveInput::<TO> { file: whole.file.clone(), out });
        }
    }
}

/// Many states: all numbers of states from 8 up, every R among them.
fn large(tally: &mut Tally, chance: &mut Chance) {
    for states in 8..=64 {
        let version = models::either_version(chance);
        let mut fields = models::accepted(chance, version, states, states % 8 + 1);
        let cells = models::cells(chance, &fields).max(fields.block());
        tally.compare("many states", &Input { file: fields.bytes(), cells });
        models::damage_any(chance, &mut fields);
        tally.compare("many states, damaged", &Input { file: fields.bytes(), cells });
    }
}

/// Lists of 1 to 8 times for many states; the last has 64 states, R = 8, starting weights and 8 times.
fn series_large(tally: &mut Tally, chance: &mut Chance) {
    for count in 1..=8 {
        for version in [1, 2] {
            tally.compare("many states", &models::whole_series(chance, version, 8 + 7 * count as u8, count));
        }
    }
    let times = vec![1, 2, 4, 8, 16, 32, 48, 64];
    let input = SeriesInput { file: models::heaviest(chance, 2).bytes(), times, levels: 8, cells: 8 * 520 };
    tally.compare("the most of all", &input);
}

/// Remainders for many states: all numbers of states from 8 up, every R among them, whole and damaged.
fn remainders_large(tally: &mut Tally, chance: &mut Chance) {
    for states in 8..=64 {
        let version = models::either_version(chance);
        let mut fields = models::accepted(chance, version, states, states % 8 + 1);
        let asked = models::ask(chance, models::limits(&fields.bytes()));
        tally.compare("many states", &RemaindersInput { file: fields.bytes(), asked });
        models::damage_any(chance, &mut fields);
        tally.compare("many states, damaged", &RemaindersInput { file: fields.bytes(), asked });
    }
    let file = models::heaviest(chance, 2).bytes();
    let last = models::limits(&file);
    tally.compare("the last of all", &RemaindersInput { file: file.clone(), asked: last });
    for _ in 0..4 {
        let asked = models::ask(chance, last);
        tally.compare("the heaviest", &RemaindersInput { file: file.clone(), asked });
    }
}

/// Moves for many states: all numbers of states from 8 up, every R among them, whole, with a byte too few, and damaged.
fn moves_large<const TO: u8>(tally: &mut Tally, chance: &mut Chance) {
    for states in 8..=64 {
        let whole = models::whole_move::<TO>(chance, states, states % 8 + 1);
        tally.compare("many states", &whole);
        tally.compare("many states, a byte too few", &MoveInput::<TO> { out: whole.out - 1, ..whole });
        let mut fields = models::movable::<TO>(chance, states, states % 8 + 1);
        models::damage_any(chance, &mut fields);
        tally.compare("many states, damaged", &MoveInput::<TO> { file: fields.bytes(), out: 16_653 });
    }
}

/// M and R at their borders and past them, also with more bytes lent than 16 bits count; every number of bytes lent for the file.
fn practice_sweeps(tally: &mut Tally, chance: &mut Chance) {
    for states in models::borders(64) {
        for highest in models::borders(8) {
            for out in [0, 16, 17, 16_396, 16_397, 16_653, 65_536, 65_537] {
                let input = PracticeInput { states, highest, seed: chance.next() as u32, out };
                tally.compare("borders", &input);
            }
        }
    }
    for states in 1..=6 {
        for out in 0..=models::practice_length(states) + 3 {
            let input = PracticeInput { states, highest: chance.between(1, 8), seed: chance.next() as u32, out };
            tally.compare("every number of bytes", &input);
        }
    }
}

/// Every M, with the least R, the highest and one between: as many bytes as the file takes, and one less.
fn practice_large(tally: &mut Tally, chance: &mut Chance) {
    for states in 1..=64 {
        let out = models::practice_length(states);
        for highest in [1, states % 8 + 1, 8] {
            for seed in [0, 1, 1 << 31, u32::MAX, chance.next() as u32] {
                let whole = PracticeInput { states, highest, seed, out };
                tally.compare("every number of states", &whole);
                tally.compare("a byte too few", &PracticeInput { out: out - 1, ..whole });
            }
        }
    }
}

/// Seed numbers with a first draw about every multiple of 4,096, where the time changes, and with a second draw, the first
/// reward's, at its ends.
fn practice_draws(tally: &mut Tally, chance: &mut Chance) {
    let about = (1..16).flat_map(|k| [4_096 * k - 1, 4_096 * k]).chain([0, 65_535]);
    for (draw, steps) in about.map(|draw| (draw, 1)).chain([(0, 2), (65_535, 2)]) {
        for low in [0, 65_535, chance.between(1, 65_534) as u32] {
            let seed = models::seed_before(draw << 16 | low, steps);
            tally.compare("a draw at a border", &PracticeInput { states: 3, highest: 2, seed, out: 49 });
        }
    }
}

/// The file of that name, with the name.
fn stored(name: String) -> (String, Vec<u8>) {
    match std::fs::read(Path::new(&name)) {
        Ok(file) => (name, file),
        Err(error) => {
            println!("rust comparison: {name} cannot be read: {error}");
            exit(2);
        }
    }
}

/// A file with a list that ends in its own time: an hour, half of the time, an hour less, the time.
fn up_to_own_time(file: &[u8]) -> SeriesInput {
    let own = if file.len() < 13 { 1 } else { models::own_time(file) };
    let mut times = vec![1, own / 2, own.saturating_sub(1), own];
    times.retain(|&time| time > 0);
    times.sort();
    times.dedup();
    SeriesInput { file: file.to_vec(), times, levels: 4, cells: 4 * 520 }
}

/// The first state, n and r of a file, and the last of each, or 0 where it is stopped.
fn first_and_last(file: &[u8]) -> [RemaindersInput; 2] {
    let last = independent::sizes(file).map_or([0; 3], |sizes| sizes.limits);
    [[1; 3], last].map(|asked| RemaindersInput { file: file.to_vec(), asked })
}

/// 1234567 as 1,234,567.
fn grouped(number: usize) -> String {
    let digits = number.to_string();
    let mut text = String::new();
    for (at, digit) in digits.chars().enumerate() {
        if at > 0 && (digits.len() - at) % 3 == 0 {
            text.push(',');
        }
        text.push(digit);
    }
    text
}

/// What decides the inputs: the seed, how many small ones are drawn for each call, and the stored files.
struct Plan {
    seed: u64,
    count: usize,
    files: Vec<(String, Vec<u8>)>,
}

fn compare_calculate(tally: &mut Tally, chance: &mut Chance, plan: &Plan) {
    let seed = plan.seed;
    papers(tally);
    for (name, file) in &plan.files {
        tally.compare(name, &Input { file: file.clone(), cells: 520 });
    }
    sweeps(tally, chance);
    large(tally, chance);
    for k in 0..plan.count {
        let input = models::small(chance, k);
        tally.compare(&format!("seed {seed}, small {k}"), &input);
    }
    for k in 0..8 {
        let input = Input { file: models::heaviest(chance, 1 + k % 2).bytes(), cells: 520 };
        tally.compare(&format!("seed {seed}, heavy {k}"), &input);
    }
    for k in 0..400 {
        let input = Input { file: models::half_tick(chance).bytes(), cells: 24 };
        tally.compare(&format!("seed {seed}, half tick {k}"), &input);
    }
}

fn compare_series(tally: &mut Tally, chance: &mut Chance, plan: &Plan) {
    let seed = plan.seed;
    series_papers(tally);
    for (name, file) in &plan.files {
        tally.compare(name, &up_to_own_time(file));
    }
    series_sweeps(tally, chance);
    series_large(tally, chance);
    for k in 0..plan.count {
        let input = models::series(chance, k);
        tally.compare(&format!("seed {seed}, list {k}"), &input);
    }
    for k in 0..400 {
        let file = models::half_tick(chance).bytes();
        let input = SeriesInput { file, times: vec![1, 2, 3], levels: 3, cells: 72 };
        tally.compare(&format!("seed {seed}, half tick first {k}"), &input);
    }
}

fn compare_remainders(tally: &mut Tally, chance: &mut Chance, plan: &Plan) {
    let seed = plan.seed;
    remainders_papers(tally);
    for (name, file) in &plan.files {
        for input in first_and_last(file) {
            tally.compare(name, &input);
        }
    }
    remainders_sweeps(tally, chance);
    remainders_large(tally, chance);
    for k in 0..plan.count {
        let input = models::remainders(chance, k);
        tally.compare(&format!("seed {seed}, remainders {k}"), &input);
    }
}

fn compare_moves<const TO: u8>(tally: &mut Tally, chance: &mut Chance, plan: &Plan) {
    let seed = plan.seed;
    for (name, file) in &plan.files {
        tally.compare(name, &MoveInput::<TO> { file: file.clone(), out: 16_653 });
    }
    moves_large::<TO>(tally, chance);
    for k in 0..plan.count {
        let input = models::moves::<TO>(chance, k);
        tally.compare(&format!("seed {seed}, move {k}"), &input);
    }
}

fn compare_to_version_2(tally: &mut Tally, chance: &mut Chance, plan: &Plan) {
    to_version_2_papers(tally);
    move_sweeps::<2>(tally, chance, [&A, &B]);
    compare_moves::<2>(tally, chance, plan);
}

fn compare_to_version_1(tally: &mut Tally, chance: &mut Chance, plan: &Plan) {
    to_version_1_papers(tally);
    move_sweeps::<1>(tally, chance, [&A2, &with_start(1_000_000, 0)]);
    starts(tally, chance, |fields| MoveInput::<1> { file: fields.bytes(), out: 16_653 });
    compare_moves::<1>(tally, chance, plan);
}

fn compare_practice(tally: &mut Tally, chance: &mut Chance, plan: &Plan) {
    let seed = plan.seed;
    practice_papers(tally);
    practice_sweeps(tally, chance);
    practice_draws(tally, chance);
    practice_large(tally, chance);
    for k in 0..plan.count {
        let input = models::practice(chance);
        tally.compare(&format!("seed {seed}, practice {k}"), &input);
    }
}

fn main() {
    let mut plan = Plan { seed: 1869, count: 20_000, files: vec![] };
    let mut tally = Tally { save: PathBuf::from("."), inputs: 0, ends: BTreeMap::new() };
    let mut words = std::env::args().skip(1);
    while let Some(word) = words.next() {
        let mut value = || words.next().unwrap_or_else(|| usage(&word));
        match word.as_str() {
            "--seed" => plan.seed = value().parse().unwrap_or_else(|_| usage(&word)),
            "--count" => plan.count = value().parse().unwrap_or_else(|_| usage(&word)),
            "--save" => tally.save = PathBuf::from(value()),
            _ => plan.files.push(stored(word)),
        }
    }

    let mut chance = Chance::new(plan.seed);
    compare_calculate(&mut tally, &mut chance, &plan);
    compare_series(&mut tally, &mut chance, &plan);
    compare_remainders(&mut tally, &mut chance, &plan);
    compare_to_version_2(&mut tally, &mut chance, &plan);
    compare_to_version_1(&mut tally, &mut chance, &plan);
    compare_practice(&mut tally, &mut chance, &plan);

    tally.print::<Input>(plan.seed);
    tally.print::<SeriesInput>(plan.seed);
    tally.print::<RemaindersInput>(plan.seed);
    tally.print::<MoveInput<2>>(plan.seed);
    tally.print::<MoveInput<1>>(plan.seed);
    tally.print::<PracticeInput>(plan.seed);
    println!("rust comparison: {} inputs of six calls, all equal", grouped(tally.inputs));
}

fn usage(word: &str) -> ! {
    println!("rust comparison: what follows {word} is no number or is missing");
    exit(2);
}
