//! Times calls, and says what many times come to.

use std::time::Instant;

/// A turn of a line takes at least about this long: as many calls as that needs are timed as one.
const TURN_MICROSECONDS: f64 = 1_000.0;

/// The microseconds a call, of some calls timed as one.
pub fn microseconds(calls: u32, mut call: impl FnMut()) -> f64 {
    let start = Instant::now();
    for _ in 0..calls {
        call();
    }
    start.elapsed().as_secs_f64() * 1e6 / f64::from(calls)
}

/// How many calls a turn takes, where `time` times one of them.
fn calls_in_a_turn(time: impl Fn() -> f64) -> u32 {
    let least = (0..3).map(|_| time()).fold(f64::INFINITY, f64::min);
    (TURN_MICROSECONDS / least).clamp(1.0, 10_000.0) as u32
}

/// A model file, what is asked of it, and what every line has to leave.
pub trait Case {
    /// The number of lines.
    const LINES: usize;

    /// The microseconds a call of a line, of some calls timed as one. What they leave is compared.
    fn time(&self, line: usize, calls: u32) -> f64;
}

/// A case with the microseconds a call of each line, turn by turn.
pub struct Timed<C> {
    pub case: C,
    calls: Vec<u32>,
    times: Vec<Vec<f64>>,
}

impl<C: Case> Timed<C> {
    /// No turn yet, with the count of calls in a turn of each of `lines`.
    fn new(case: C, lines: &[usize]) -> Timed<C> {
        let mut calls = vec![1; C::LINES];
        for line in lines {
            calls[*line] = calls_in_a_turn(|| case.time(*line, 1));
        }
        Timed { case, calls, times: vec![Vec::new(); C::LINES] }
    }

    fn turn(&mut self, line: usize) {
        let time = self.case.time(line, self.calls[line]);
        self.times[line].push(time);
    }

    pub fn times(&self, line: usize) -> Spread {
        Spread::of(self.times[line].iter().copied())
    }

    /// Of the ratios of each turn, so that both parts of one are of the same spell.
    pub fn ratios(&self, line: usize, other: usize) -> Spread {
        Spread::of(self.times[line].iter().zip(&self.times[other]).map(|(own, other)| own / other))
    }
}

/// Times some lines on all cases. The cases and the lines take turns, so that a slow spell of the machine meets all of them.
pub fn take_turns<C: Case>(turns: usize, cases: impl Iterator<Item = C>, lines: &[usize]) -> Vec<Timed<C>> {
    let mut timed: Vec<Timed<C>> = cases.map(|case| Timed::new(case, lines)).collect();
    for _ in 0..turns {
        for case in &mut timed {
            for line in lines {
                case.turn(*line);
            }
        }
    }
    timed
}

/// The least of some numbers, their quartiles and the greatest.
pub struct Spread {
    pub least: f64,
    pub low: f64,
    pub median: f64,
    pub high: f64,
    pub greatest: f64,
}

impl Spread {
    fn of(numbers: impl Iterator<Item = f64>) -> Spread {
        let mut sorted: Vec<f64> = numbers.collect();
        sorted.sort_by(f64::total_cmp);
        let at = |quarters: usize| sorted[quarters * (sorted.len() - 1) / 4];
        Spread { least: at(0), low: at(1), median: at(2), high: at(3), greatest: at(4) }
    }
}
