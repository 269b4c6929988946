// A plain incremental engine that keeps sums by differences: what a result moves by is added to each sum that reads it,
// and no operand is looked at again. It shows how little a change over many sums can take in ordinary Rust.
//
// Of the duties of the program's engine it has these: room for results of each kind, over values of each type, with a
// stamp; what a change replaced is kept until it is done; the facts of the lowest rank come first; and what was touched is
// counted. It has no members of collections and no final results, and never runs out of memory. A sum over a result that
// is no complete amount is worked out from its operands.

use crate::{Body, Res, MOST};
use std::mem;

// The values that a result may have. Here only amounts come up.
#[derive(PartialEq)]
#[allow(dead_code)]
enum Value {
    Boolean(bool),
    Int(i64),
    Dollar(i64),
    Rational(i64, i64),
    Day(i32),
    Text(String),
    Item(u32),
    Members(Vec<u32>),
}

#[derive(PartialEq)]
#[allow(dead_code)]
enum Outcome {
    Complete(Value),
    Placeholder(Value),
    Incomplete,
    Overflow,
}

fn complete(amount: i64) -> Outcome {
    Outcome::Complete(Value::Dollar(amount))
}

// The amount of a complete result. Others count apart.
fn amount_of(result: &Outcome) -> Option<i64> {
    match result {
        Outcome::Complete(Value::Dollar(amount)) => Some(*amount),
        _ => None,
    }
}

// The result of a fact, and the number of the last change that touched it.
#[allow(dead_code)]
struct Cell {
    result: Outcome,
    stamp: u64,
}

// What the operands of a fact add up to, and how many of them have no complete amount. A writable fact has none.
#[derive(Clone, Copy)]
struct Sum {
    total: i128,
    others: i32,
    rank: u32,
    is_waiting: bool,
}

// A fact that reads another one, and how many times.
struct Reader {
    place: u32,
    times: i32,
}

// What a change replaced, from which it could be undone.
#[allow(dead_code)]
struct Replaced {
    place: usize,
    cell: Cell,
}

pub struct Differences {
    cells: Vec<Cell>,
    sums: Vec<Sum>,
    operands: Vec<Vec<usize>>,
    readers: Vec<Vec<Reader>>,
    /// By rank, the facts that wait.
    waiting: Vec<Vec<usize>>,
    replaced: Vec<Replaced>,
    stamp: u64,
    /// How many facts the last change touched.
    touched: usize,
}

impl Differences {
    pub fn of(bodies: &[Body]) -> Differences {
        let mut all = Differences {
            cells: Vec::new(),
            sums: Vec::new(),
            operands: Vec::new(),
            readers: Vec::new(),
            waiting: Vec::new(),
            replaced: Vec::new(),
            stamp: 0,
            touched: 0,
        };
        for (place, body) in bodies.iter().enumerate() {
            let operands = match body {
                Body::Writable => Vec::new(),
                Body::Sum(operands) => operands.clone(),
            };
            for operand in &operands {
                match all.readers[*operand].last_mut() {
                    Some(last) if last.place as usize == place => last.times += 1,
                    _ => all.readers[*operand].push(Reader { place: place as u32, times: 1 }),
                }
            }
            let rank = operands.iter().map(|operand| all.sums[*operand].rank + 1).max().unwrap_or(0);
            all.waiting.resize_with(all.waiting.len().max(rank as usize + 1), Vec::new);
            all.sums.push(Sum { total: 0, others: operands.len() as i32, rank, is_waiting: false });
            all.cells.push(Cell { result: Outcome::Incomplete, stamp: 0 });
            all.operands.push(operands);
            all.readers.push(Vec::new());
        }
        all
    }

    pub fn result(&self, place: usize) -> Res {
        match &self.cells[place].result {
            Outcome::Complete(Value::Dollar(amount)) => Res::Complete(*amount),
            Outcome::Overflow => Res::Overflow,
            _ => Res::Incomplete,
        }
    }

    /// Answers a writable fact.
    pub fn change(&mut self, place: usize, amount: i64) {
        self.stamp += 1;
        self.put(place, complete(amount));
        for rank in 1..self.waiting.len() {
            let mut waiting = mem::take(&mut self.waiting[rank]);
            for place in waiting.drain(..) {
                self.sums[place].is_waiting = false;
                let result = self.sum(place);
                self.put(place, result);
            }
            self.waiting[rank] = waiting;
        }
        self.touched = self.replaced.len();
        self.replaced.clear();
    }

    fn sum(&self, place: usize) -> Outcome {
        let sum = &self.sums[place];
        if sum.others == 0 {
            return match sum.total.unsigned_abs() <= MOST {
                true => complete(sum.total as i64),
                false => Outcome::Overflow,
            };
        }
        let is_incomplete = |operand: &usize| self.cells[*operand].result == Outcome::Incomplete;
        match self.operands[place].iter().any(is_incomplete) {
            true => Outcome::Incomplete,
            false => Outcome::Overflow,
        }
    }

    // Puts a fact's new result. Where it moved, its readers wait.
    fn put(&mut self, place: usize, result: Outcome) {
        let cell = mem::replace(&mut self.cells[place], Cell { result, stamp: self.stamp });
        let new = &self.cells[place].result;
        if cell.result != *new {
            let (before, after) = (amount_of(&cell.result), amount_of(new));
            let moved = after.unwrap_or(0) - before.unwrap_or(0);
            let others = i32::from(after.is_none()) - i32::from(before.is_none());
            for reader in &self.readers[place] {
                let sum = &mut self.sums[reader.place as usize];
                sum.total += i128::from(moved) * i128::from(reader.times);
                sum.others += others * reader.times;
                if !sum.is_waiting {
                    sum.is_waiting = true;
                    self.waiting[sum.rank as usize].push(reader.place as usize);
                }
            }
        }
        self.replaced.push(Replaced { place, cell });
    }
}
