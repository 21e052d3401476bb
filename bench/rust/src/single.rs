//! Times single calls: of the library and of the versions in Rust.

use crate::timing::{self, Spread, Timed};
use crate::{every, independent, library, same, wide, CELLS};
use std::hint::black_box;
use std::path::Path;

type Calculation = fn(&[u8], &mut [u64], &mut u64) -> Result<u64, u8>;

/// The library first, then the versions in Rust.
const LINES: [(&str, Calculation); 5] = [
    ("library", library::calculate),
    ("same", same::calculate),
    ("wide", wide::calculate),
    ("every", every::calculate),
    ("plain", independent::calculate),
];
const LIBRARY: usize = 0;

/// A model file, and what every line has to answer.
struct Case {
    name: String,
    file: Vec<u8>,
    level: u64,
    cells: [u64; CELLS],
    row_means: u64,
}

impl Case {
    fn read(path: &Path) -> Case {
        let name = path.file_stem().expect("a file's name").to_string_lossy().into_owned();
        let file = std::fs::read(path).expect("a model file");
        let (mut cells, mut row_means) = ([0; CELLS], 0);
        let level = independent::calculate(&file, &mut cells, &mut row_means).expect("an accepted file");
        Case { name, file, level, cells, row_means }
    }

    fn states(&self) -> u64 {
        self.file[3].into()
    }

    fn highest(&self) -> u64 {
        self.file[4].into()
    }

    /// M × M × R × N, the number of products c(i,j) × U, those with 0 among them. A line that goes over the arrows makes fewer on
    /// a sparse file.
    fn products(&self) -> u64 {
        self.states() * self.states() * self.highest() * self.level
    }
}

impl timing::Case for Case {
    const LINES: usize = LINES.len();

    /// The answer, the cells and the number of row means are compared.
    fn time(&self, line: usize, calls: u32) -> f64 {
        let (name, calculation) = LINES[line];
        let (mut cells, mut row_means) = ([0; CELLS], 0);
        let mut answer = Err(0);
        let spent = timing::microseconds(calls, || {
            answer = calculation(black_box(&self.file), black_box(&mut cells), black_box(&mut row_means));
        });
        assert_eq!(answer, Ok(self.level), "{name}");
        assert_eq!(cells, self.cells, "{name}");
        assert_eq!(row_means, self.row_means, "{name}: row means");
        spent
    }
}

impl Timed<Case> {
    fn nanoseconds_a_product(&self, line: usize) -> f64 {
        self.times(line).median * 1e3 / self.case.products() as f64
    }

    fn fastest_in_rust(&self) -> usize {
        let rust = (0..LINES.len()).filter(|line| *line != LIBRARY);
        rust.min_by(|a, b| self.times(*a).median.total_cmp(&self.times(*b).median)).expect("a version in Rust")
    }

    fn print(&self) {
        let fastest = self.fastest_in_rust();
        let Case { name, level, .. } = &self.case;
        let (states, highest, products) = (self.case.states(), self.case.highest(), self.case.products());
        println!("{name}: {states} states, R = {highest}, level {level}, {products} products c(i,j) × U");
        println!("  line         median      least   greatest ns/product  library/line  line/fastest   middle half");
        for (line, (label, _)) in LINES.iter().enumerate() {
            let Spread { median, least, greatest, .. } = self.times(line);
            let product = self.nanoseconds_a_product(line);
            let library = self.ratios(LIBRARY, line).median;
            let ratios = self.ratios(line, fastest);
            print!("  {label:<8} {median:>10.2} {least:>10.2} {greatest:>10.2} {product:>10.3} {library:>13.2} ");
            println!("{:>13.2}  {:>5.2} to {:.2}", ratios.median, ratios.low, ratios.high);
        }
        let ratios = self.ratios(LIBRARY, fastest);
        println!("  fastest in Rust: {}; library/fastest {:.2}\n", LINES[fastest].0, ratios.median);
    }

    fn print_short(&self) {
        let Case { name, level, .. } = &self.case;
        let (states, highest) = (self.case.states(), self.case.highest());
        print!("  {name:<14} {states:>6} {highest:>2} {level:>5}");
        let fastest = self.fastest_in_rust();
        for line in [LIBRARY, fastest] {
            print!(" {:>11.2} {:>10.3}", self.times(line).median, self.nanoseconds_a_product(line));
        }
        println!("   {:<7} {:>13.2}", LINES[fastest].0, self.ratios(LIBRARY, fastest).median);
    }
}

/// Times the chosen line on some files, or all lines, and prints what all came to.
pub fn measure(turns: usize, line: &str, paths: &[String]) {
    let chosen = |number: &usize| line == "all" || line == LINES[*number].0;
    let lines: Vec<usize> = (0..LINES.len()).filter(chosen).collect();
    assert!(!lines.is_empty(), "no line {line}");
    let cases = paths.iter().map(|path| Case::read(Path::new(path)));
    let timed = timing::take_turns(turns, cases, &lines);
    if lines.len() < LINES.len() {
        return;
    }
    println!("{turns} turns; times in microseconds a call; a ratio is the median of the ratios turn by turn\n");
    for case in &timed {
        case.print();
    }
    println!("all files: the medians of the library and of the fastest in Rust");
    println!("  file           states  R level     library ns/product     fastest ns/product   which library/fastest");
    for case in &timed {
        case.print_short();
    }
}
