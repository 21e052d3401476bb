// What the helper stands for, where there are 128 bits: the product whole, and one division.
//
// `over_trillion` too: muldiv.rs's split into millions was tried here, and is somewhat slower on the heaviest file than the
// one division instruction that this comes to.

use super::definitions::{Division, ONE};

pub fn scaled(a: u64, b: u64, c: u64) -> Division {
    let product = u128::from(a) * u128::from(b);
    Division {
        quotient: (product / u128::from(c)) as u64,
        remainder: (product % u128::from(c)) as u64,
    }
}

pub fn divide(n: u64, c: u64) -> Division {
    Division { quotient: n / c, remainder: n % c }
}

pub fn over_trillion(a: u64, b: u64) -> Division {
    scaled(a, b, ONE)
}
