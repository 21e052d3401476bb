//! Times five calculations side by side, in one process, lists of times beside single calls, and the call for remainders
//! beside one for the moments. `bench/run` builds and runs this.
//!
//!     library   the proved call, from libkuldrepso.a
//!     same      the same algorithm in Rust, with the same helper
//!     wide      the same algorithm in Rust, with u128 in the helper's place
//!     every     the same algorithm in Rust, with every product in a row mean, as before S-7
//!     plain     the independent version of the comparison: u128 throughout, vectors on the heap
//!
//!     bench TURNS all FILE...                prints the times and the ratios
//!     bench TURNS LINE FILE...               runs that line alone and prints nothing, for a profiler
//!     bench TURNS series [FILE TIMES]...     times a list of 8 times, as 1,2,3,4,5,6,7,8, beside single calls
//!     bench TURNS remainders FILE...         times the call for remainders

#[path = "../../../tests/rust/src/independent.rs"]
#[allow(dead_code)] // its series is not timed
mod independent;
#[path = "../../../tests/rust/src/library.rs"]
#[allow(dead_code)] // no call here answers NONE
mod library;
mod remainders;
mod series;
mod single;
mod timing;

/// Cells for every file at one time: 64 states and the start, 8 figures each.
const CELLS: usize = 520;

/// The helper as crates/muldiv has it.
mod same {
    mod muldiv {
        include!("muldiv.rs");
    }
    mod rows {
        include!("arrows.rs");
    }
    include!("algorithm.rs");
}

/// The helper in u128.
mod wide {
    mod muldiv {
        include!("wide.rs");
    }
    mod rows {
        include!("arrows.rs");
    }
    include!("algorithm.rs");
}

/// Every product in a row mean.
#[allow(dead_code)] // its series is not timed
mod every {
    mod muldiv {
        include!("muldiv.rs");
    }
    mod rows {
        include!("every.rs");
    }
    include!("algorithm.rs");
}

fn main() {
    let words: Vec<String> = std::env::args().skip(1).collect();
    let turns: usize = words[0].parse().expect("a number of turns");
    match words[1].as_str() {
        "series" => series::measure(turns, &words[2..]),
        "remainders" => remainders::measure(turns, &words[2..]),
        line => single::measure(turns, line, &words[2..]),
    }
}
