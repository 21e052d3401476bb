// The library called from Rust: reads a model file from standard input and prints its sheet.
// Exit status 0 for an accepted file, 1 for a refused one or where it cannot be read or written.
//
//     rustc --edition 2021 examples/library/call.rs -L native="$(dirname "$(./build kuldrepso)")" -l static=kuldrepso -o target/call
//     target/call < examples/B.model
use std::io::{stdin, stdout, Read, Write};
use std::process::ExitCode;

extern "C" {
    fn kuldrepso_calculate(
        file: *const u8,
        file_length: usize,
        cells: *mut u64,
        cell_count: usize,
        row_means: *mut u64,
    ) -> u64;
}

const REFUSED: u64 = 1_000_000;
const ONE: u64 = 1_000_000_000_000;

/// The level, with the moments, and in version 2 the start figures, in the cells; or the number of the rule that stops
/// the file, and no cell changes. How many row means were taken is not on the sheet, and not handed on.
fn calculate(file: &[u8], cells: &mut [u64]) -> Result<u64, u64> {
    let mut row_means = 0;
    let answer =
        unsafe { kuldrepso_calculate(file.as_ptr(), file.len(), cells.as_mut_ptr(), cells.len(), &mut row_means) };
    if answer < REFUSED {
        Ok(answer)
    } else {
        Err(answer - REFUSED)
    }
}

fn main() -> std::io::Result<ExitCode> {
    let mut file = Vec::new();
    stdin().take(16_654).read_to_end(&mut file)?;
    let mut cells = [0; 520];
    let mut out = stdout();
    match calculate(&file, &mut cells) {
        Err(rule) => {
            writeln!(out, "refused {rule}")?;
            Ok(ExitCode::FAILURE)
        }
        Ok(level) => {
            writeln!(out, "level {level}")?;
            let (states, highest) = (file[3] as usize, file[4] as usize);
            let mut names: Vec<String> = (1..=states).map(|state| state.to_string()).collect();
            if file[2] == 2 {
                names.push("start".to_string());
            }
            for (name, figures) in names.iter().zip(cells.chunks(highest)) {
                for (r, figure) in (1..).zip(figures) {
                    writeln!(out, "{name} {r} {}.{:012}", figure / ONE, figure % ONE)?;
                }
            }
            Ok(ExitCode::SUCCESS)
        }
    }
}
