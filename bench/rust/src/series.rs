//! Times one call with a list of times beside single calls: one for each time of the list, and one for its last time.

use crate::timing::{self, Spread, Timed};
use crate::{independent, library, same, wide, CELLS};
use std::hint::black_box;
use std::path::Path;

type Series = fn(&[u8], &[u32], &mut [u64], &mut [u64], &mut u64) -> Result<u64, u8>;

/// Times in each list.
const TIMES: usize = 8;

#[derive(Clone, Copy)]
enum Line {
    /// One call with the list.
    List(Series),
    /// A single call of the library for each time from this one on.
    Singles(usize),
}

const LINES: [(&str, Line); 5] = [
    ("series, library", Line::List(library::series)),
    ("series, same", Line::List(same::series)),
    ("series, wide", Line::List(wide::series)),
    ("8 calls, library", Line::Singles(0)),
    ("last time, library", Line::Singles(TIMES - 1)),
];
const SERIES: usize = 0;
const SAME: usize = 1;
const WIDE: usize = 2;
const SINGLES: usize = 3;
const LAST: usize = 4;

/// A level and a block of cells for each time of a list, and the number of row means of each single call, or in the first
/// place that of the one call with the list.
struct Filled {
    levels: [u64; TIMES],
    cells: [u64; TIMES * CELLS],
    row_means: [u64; TIMES],
}

impl Filled {
    fn zeros() -> Filled {
        Filled { levels: [0; TIMES], cells: [0; TIMES * CELLS], row_means: [0; TIMES] }
    }
}

/// A model file with a list, and what every line has to fill.
struct Case {
    name: String,
    file: Vec<u8>,
    list: [u32; TIMES],
    /// The file with each time of the list in the place of its own.
    singles: [Vec<u8>; TIMES],
    expected: Filled,
}

impl Case {
    fn read(path: &Path, list: &str) -> Case {
        let name = path.file_stem().expect("a file's name").to_string_lossy().into_owned();
        let file = std::fs::read(path).expect("a model file");
        let list = times_of(list);
        let singles = list.map(|time| with_time(&file, time));
        let mut case = Case { name, file, list, singles, expected: Filled::zeros() };
        case.expected = case.expect();
        case
    }

    /// The levels, blocks and row means of single calls, by the independent version.
    fn expect(&self) -> Filled {
        let mut filled = Filled::zeros();
        for (k, file) in self.singles.iter().enumerate() {
            let cells = &mut filled.cells[k * self.block()..];
            let answer = independent::calculate(file, cells, &mut filled.row_means[k]);
            filled.levels[k] = answer.expect("an accepted file");
        }
        filled
    }

    fn run(&self, number: usize, filled: &mut Filled) {
        let (name, line) = LINES[number];
        match line {
            Line::List(series) => assert_eq!(self.run_list(series, filled), Ok(TIMES as u64), "{name}"),
            Line::Singles(first) => self.run_singles(first, filled),
        }
    }

    fn run_list(&self, series: Series, filled: &mut Filled) -> Result<u64, u8> {
        let Filled { levels, cells, row_means } = filled;
        let taken = &mut row_means[0];
        series(black_box(&self.file), black_box(&self.list), black_box(levels), black_box(cells), black_box(taken))
    }

    fn run_singles(&self, first: usize, filled: &mut Filled) {
        for k in first..TIMES {
            let cells = &mut filled.cells[k * self.block()..];
            let taken = &mut filled.row_means[k];
            let answer = library::calculate(black_box(&self.singles[k]), black_box(cells), black_box(taken));
            filled.levels[k] = answer.expect("an accepted file");
        }
    }

    fn compare(&self, number: usize, filled: &Filled) {
        let (name, line) = LINES[number];
        let first = match line {
            Line::List(_) => 0,
            Line::Singles(first) => first,
        };
        let cell = first * self.block();
        assert_eq!(filled.levels[first..], self.expected.levels[first..], "{name}: levels");
        assert!(filled.cells[cell..] == self.expected.cells[cell..], "{name}: cells");
        match line {
            Line::List(_) => assert_eq!(filled.row_means[0], self.most_row_means(), "{name}: row means"),
            Line::Singles(_) => {
                assert_eq!(filled.row_means[first..], self.expected.row_means[first..], "{name}: row means")
            }
        }
    }

    /// Those of the largest level, which one call with the list takes.
    fn most_row_means(&self) -> u64 {
        self.expected.row_means.into_iter().max().expect("a time")
    }

    fn states(&self) -> usize {
        self.file[3].into()
    }

    fn highest(&self) -> usize {
        self.file[4].into()
    }

    /// The cells of one time: R for each state, and in version 2 R for the start.
    fn block(&self) -> usize {
        let starts = usize::from(self.file[2] == 2);
        (self.states() + starts) * self.highest()
    }
}

impl timing::Case for Case {
    const LINES: usize = LINES.len();

    /// 8 single calls count as one. The levels, the cells and the numbers of row means are compared.
    fn time(&self, line: usize, calls: u32) -> f64 {
        let mut filled = Filled::zeros();
        let spent = timing::microseconds(calls, || self.run(line, &mut filled));
        self.compare(line, &filled);
        spent
    }
}

impl Timed<Case> {
    fn print(&self) {
        let case = &self.case;
        println!("\n{}: {} states, R = {}", case.name, case.states(), case.highest());
        println!("  times {:?}, levels {:?}", case.list, case.expected.levels);
        println!("  line                    median   middle half");
        for (line, (label, _)) in LINES.iter().enumerate() {
            print_spread(label, self.times(line));
        }
        print_spread("series/last time", self.ratios(SERIES, LAST));
        print_spread("8 calls/series", self.ratios(SINGLES, SERIES));
        print_spread("library/same", self.ratios(SERIES, SAME));
        print_spread("library/wide", self.ratios(SERIES, WIDE));
    }
}

fn print_spread(label: &str, Spread { low, median, high, .. }: Spread) {
    println!("  {label:<18} {median:>11.2}   {low:.2} to {high:.2}");
}

/// The numbers of a list as 1,2,3,4,5,6,7,8.
fn times_of(list: &str) -> [u32; TIMES] {
    let times: Vec<u32> = list.split(',').map(|time| time.parse().expect("a time")).collect();
    times.try_into().expect("a list of 8 times")
}

/// The file with another time: bytes 9 to 12.
fn with_time(file: &[u8], time: u32) -> Vec<u8> {
    let mut changed = file.to_vec();
    changed[9..13].copy_from_slice(&time.to_be_bytes());
    changed
}

/// Times all lines on some files, each with a list, and prints what they came to.
pub fn measure(turns: usize, words: &[String]) {
    let cases = words.chunks(2).map(|pair| Case::read(Path::new(&pair[0]), &pair[1]));
    let timed = timing::take_turns(turns, cases, &[SERIES, SAME, WIDE, SINGLES, LAST]);
    println!("{turns} turns; times in microseconds a call, or for all 8; a ratio is the median of the ratios turn by turn");
    for case in &timed {
        case.print();
    }
}
