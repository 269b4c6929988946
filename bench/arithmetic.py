#!/usr/bin/env python3
"""Times ten million calls of each kind of arithmetic. Nothing is judged.

    bench/arithmetic.py

The program's start, about a millisecond, is counted.
"""
import sys

from building import built
from timing import words_of

PROGRAM = r"""//! Runs one operation ten million times, on operands that change.
#![tactic(auto)]

use fact_values::{Dollar, Num, Rational, Total, ValueFault, Whole, divide, multiply};
use std::env;
use std::process::ExitCode;

const ROUNDS: i64 = 10_000_000;

// A number of each result goes into what is printed, so that no operation is left out.
fn number_of(num: Num) -> u64 {
    match num {
        Num::Int(n) => n.get().unsigned_abs(),
        Num::Dollar(amount) => amount.cents().unsigned_abs(),
        Num::Rational(q) => q.num().unsigned_abs(),
    }
}

fn seen(res: Result<Num, ValueFault>) -> u64 {
    match res {
        Ok(num) => number_of(num),
        Err(_) => 1,
    }
}

fn products() -> Option<u64> {
    let share = Rational::new(22, 7).ok()?;
    let mut sum = 0u64;
    for i in 0..ROUNDS {
        let amount = Dollar::new(i)?;
        sum = sum.wrapping_add(seen(multiply(Num::Dollar(amount), Num::Rational(share))));
    }
    Some(sum)
}

fn shares() -> Option<u64> {
    let divisor = Whole::new(84)?;
    let mut sum = 0u64;
    for i in 0..ROUNDS {
        let amount = Dollar::new(i)?;
        sum = sum.wrapping_add(seen(divide(Num::Dollar(amount), Num::Int(divisor))));
    }
    Some(sum)
}

fn fractions() -> Option<u64> {
    let divisor = Whole::new(84)?;
    let mut sum = 0u64;
    for i in 0..ROUNDS {
        let n = Whole::new(i)?;
        sum = sum.wrapping_add(seen(divide(Num::Int(n), Num::Int(divisor))));
    }
    Some(sum)
}

fn totals() -> Option<u64> {
    let mut sum = 0u64;
    for i in 0..ROUNDS {
        let mut total = Total::new(100);
        total.plus(Dollar::new(i.wrapping_mul(7919) % 1_000_003)?.cents());
        total.minus(5);
        sum = sum.wrapping_add(total.end().ok()?.unsigned_abs());
    }
    Some(sum)
}

fn worked(rt: &HostRuntime) -> Option<u64> {
    let word = env::args(rt).ok()?.nth(1)?;
    match word.as_str() {
        "products" => products(),
        "shares" => shares(),
        "fractions" => fractions(),
        "totals" => totals(),
        _ => Some(0),
    }
}

fn main(rt: HostRuntime) -> ExitCode {
    let Some(sum) = worked(&rt) else {
        return ExitCode::from(1);
    };
    let _ = println!(rt; "{sum}");
    ExitCode::from(0)
}
"""


def main(argv: list[str]) -> int:
    """Builds the program and times it."""
    words_of(__doc__).parse_args(argv)
    with built("arithmetic", "fact_values", PROGRAM) as it:
        print("10,000,000 calls")
        it.show("an amount times a fraction", "products")
        it.show("an amount by a whole number", "shares")
        it.show("a fraction of whole numbers", "fractions")
        it.show("a total of three amounts", "totals")
    return 0


if __name__ == "__main__":
    sys.exit(main(sys.argv[1:]))
