//! Times one call for remainders beside one call for the moments: those of U(n,r) at the last state, with the level for n
//! and the highest moment for r, which needs the vectors of every n.

use crate::timing::{self, Spread, Timed};
use crate::{independent, library, CELLS};
use std::hint::black_box;
use std::path::Path;

type Remainders = fn(&[u8], [u64; 3], &mut u64, &mut u64, &mut u64) -> Result<u64, u8>;

#[derive(Clone, Copy)]
enum Line {
    Remainders(Remainders),
    /// A single call of the library for the moments.
    Moments,
}

const LINES: [(&str, Line); 3] = [
    ("remainders, library", Line::Remainders(library::remainders)),
    ("remainders, plain", Line::Remainders(independent::remainders)),
    ("moments, library", Line::Moments),
];
const LIBRARY: usize = 0;
const PLAIN: usize = 1;
const MOMENTS: usize = 2;

/// A model file, the state, n and r, what is left at them, and the number of row means of the moments.
struct Case {
    name: String,
    file: Vec<u8>,
    asked: [u64; 3],
    expected: [u64; 3],
    row_means: u64,
}

impl Case {
    fn read(path: &Path) -> Case {
        let name = path.file_stem().expect("a file's name").to_string_lossy().into_owned();
        let file = std::fs::read(path).expect("a model file");
        let mut row_means = 0;
        let level = independent::calculate(&file, &mut [0; CELLS], &mut row_means).expect("an accepted file");
        let asked = [file[3].into(), level, file[4].into()];
        let mut case = Case { name, file, asked, expected: [0; 3], row_means };
        case.expected = case.left(independent::remainders);
        case
    }

    /// The three remainders that a call gives.
    fn left(&self, call: Remainders) -> [u64; 3] {
        let mut left = [0; 3];
        let [mean, share, mix] = &mut left;
        let answer = call(black_box(&self.file), black_box(self.asked), mean, share, mix);
        assert_eq!(answer, Ok(library::GIVEN));
        left
    }
}

impl timing::Case for Case {
    const LINES: usize = LINES.len();

    /// The remainders are compared, or the level and the number of row means.
    fn time(&self, number: usize, calls: u32) -> f64 {
        let (name, line) = LINES[number];
        match line {
            Line::Remainders(call) => {
                let mut left = [0; 3];
                let spent = timing::microseconds(calls, || left = self.left(call));
                assert_eq!(left, self.expected, "{name}");
                spent
            }
            Line::Moments => {
                let (mut cells, mut row_means) = ([0; CELLS], 0);
                let mut answer = Err(0);
                let spent = timing::microseconds(calls, || {
                    let taken = black_box(&mut row_means);
                    answer = library::calculate(black_box(&self.file), black_box(&mut cells), taken);
                });
                assert_eq!(answer, Ok(self.asked[1]), "{name}");
                assert_eq!(row_means, self.row_means, "{name}: row means");
                spent
            }
        }
    }
}

impl Timed<Case> {
    fn print(&self) {
        let [state, n, r] = self.case.asked;
        println!("\n{}: remainders of U({n},{r}) at state {state}", self.case.name);
        println!("  line                     median   middle half");
        for (line, (label, _)) in LINES.iter().enumerate() {
            print_spread(label, self.times(line));
        }
        print_spread("library/moments", self.ratios(LIBRARY, MOMENTS));
        print_spread("library/plain", self.ratios(LIBRARY, PLAIN));
    }
}

fn print_spread(label: &str, Spread { low, median, high, .. }: Spread) {
    println!("  {label:<19} {median:>11.2}   {low:.2} to {high:.2}");
}

/// Times all lines on some files, and prints what they came to.
pub fn measure(turns: usize, paths: &[String]) {
    let cases = paths.iter().map(|path| Case::read(Path::new(path)));
    let timed = timing::take_turns(turns, cases, &[LIBRARY, PLAIN, MOMENTS]);
    println!("{turns} turns; times in microseconds a call; a ratio is the median of the ratios turn by turn");
    for case in &timed {
        case.print();
    }
}
