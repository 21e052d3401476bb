// crates/muldiv in Rust: multiply, then divide, by a loop over the bits of b; where the divisor is 10^12, by parts of a
// million each. Quotient and remainder come back.
//
// `how_often` and `rest` choose by `select_unpredictable` (rustc 1.88 or newer) where the Rattle source has `if`: Rattle's
// compiler makes no branch of that, and rustc is kept from making one, since nobody can guess the bits.

use super::definitions::Division;
use std::hint::select_unpredictable;

const LIMIT: u64 = 1 << 62;
const LARGEST: u64 = 0xffff_ffff_ffff_ffff;
const MILLION: u64 = 1_000_000;

pub enum Divided {
    Into(Division),
    Nothing,
}

pub fn mul_div(a: u64, b: u64, c: u64) -> Divided {
    if c == 0 {
        return Divided::Nothing;
    }
    if a >= LIMIT || b >= LIMIT || c >= LIMIT {
        return Divided::Nothing;
    }
    let low = divide_by_bits(a % c, b, c);
    total(a / c, b, low)
}

pub fn scaled(a: u64, b: u64, c: u64) -> Division {
    match mul_div(a, b, c) {
        Divided::Into(d) => d,
        Divided::Nothing => Division { quotient: 0, remainder: 0 },
    }
}

pub fn divide(n: u64, c: u64) -> Division {
    Division { quotient: n / c, remainder: n % c }
}

pub fn over_trillion(a: u64, b: u64) -> Division {
    let a1 = a / MILLION;
    let a0 = a % MILLION;
    let b1 = b / MILLION;
    let b0 = b % MILLION;
    let low = a0 * b0;
    let carry = low / MILLION;
    let middle = a1 * b0 + a0 * b1 + carry;
    Division {
        quotient: a1 * b1 + middle / MILLION,
        remainder: middle % MILLION * MILLION + low % MILLION,
    }
}

fn total(high: u64, b: u64, low: Division) -> Divided {
    if high == 0 {
        return Divided::Into(low);
    }
    if b > (LARGEST - low.quotient) / high {
        return Divided::Nothing;
    }
    Divided::Into(Division {
        quotient: high * b + low.quotient,
        remainder: low.remainder,
    })
}

fn divide_by_bits(a: u64, b: u64, c: u64) -> Division {
    let mut quotient: u64 = 0;
    let mut remainder: u64 = 0;
    let mut bits_left = bit_count(b);
    while bits_left > 0 {
        bits_left -= 1;
        let sum = 2 * remainder + a * bit(b, bits_left);
        quotient = 2 * quotient + how_often(sum, c);
        remainder = rest(sum, c);
    }
    Division { quotient, remainder }
}

fn bit_count(b: u64) -> u32 {
    64 - u64::leading_zeros(b)
}

fn bit(b: u64, k: u32) -> u64 {
    (b >> k) % 2
}

fn how_often(sum: u64, c: u64) -> u64 {
    select_unpredictable(sum < c, 0, select_unpredictable(sum < 2 * c, 1, 2))
}

fn rest(sum: u64, c: u64) -> u64 {
    sum - select_unpredictable(sum < c, 0, select_unpredictable(sum < 2 * c, c, 2 * c))
}
