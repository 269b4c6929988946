// Plain engines to compare `interview run NAME` with: the same commands and replies, in ordinary Rust.
// Build them by `rustc -O --edition 2021 main.rs`.
//
// By the word `run` the first get after a set works out every fact anew; by `run-incremental` a set works out what it
// may move, by rank, as the program does; by `run-differences` it adds what a result moved by to the sums that read it,
// which differences.rs tells. Each reply is written out by itself as soon as it is whole (Rust's standard output flushes
// at each newline).
// They do less than the program in some ways: they read a dictionary with the keys in the order of the examples alone,
// straight into facts, they know sums of amounts and no other value or node, and no limits on the sizes of dictionary
// and script. They keep no changes to undo; `run` and `run-incremental` keep no stamps, and a set by `run` evaluates
// nothing. tests/plain_check.rs reads whole dictionaries.

mod differences;

use differences::Differences;
use std::cmp::Reverse;
use std::collections::{BinaryHeap, HashMap};
use std::io::{self, BufRead, Write};
use std::process::exit;

// ---- the dictionary

struct Reader<'a> {
    rest: &'a str,
}

impl<'a> Reader<'a> {
    fn is_at(&mut self, token: &str) -> bool {
        match self.rest.trim_start().strip_prefix(token) {
            Some(rest) => {
                self.rest = rest;
                true
            }
            None => false,
        }
    }

    // Takes these tokens, between which the JSON may have blanks.
    fn take(&mut self, tokens: &str) -> Option<()> {
        tokens.split(' ').all(|token| self.is_at(token)).then_some(())
    }

    // Takes a text that is a path, and gives its name.
    fn take_path(&mut self) -> Option<&'a str> {
        self.take("\"")?;
        let (path, rest) = self.rest.split_once('"')?;
        self.rest = rest;
        name_in(path)
    }
}

// The name N in the path /N.
fn name_in(path: &str) -> Option<&str> {
    let name = path.strip_prefix('/')?;
    let is_name = name.len() <= 64
        && name.starts_with(|c: char| c.is_ascii_alphabetic())
        && name.bytes().all(|b| b.is_ascii_alphanumeric() || b == b'_' || b == b'-');
    is_name.then_some(name)
}

pub enum Body {
    Writable,
    Sum(Vec<usize>),
}

#[derive(Default)]
struct Dictionary {
    places: HashMap<String, usize>,
    bodies: Vec<Body>,
}

impl Dictionary {
    fn take_sum(&self, reader: &mut Reader) -> Option<Body> {
        let mut operands = Vec::new();
        reader.take(r#""derived" : "Dollar" , "is" : [ "Add""#)?;
        while operands.is_empty() || !reader.is_at("]") {
            reader.take(r#", [ "Dependency" ,"#)?;
            operands.push(*self.places.get(reader.take_path()?)?);
            reader.take("]")?;
        }
        Some(Body::Sum(operands))
    }

    fn take_fact(&mut self, reader: &mut Reader) -> Option<()> {
        reader.take(r#"{ "path" :"#)?;
        let name = reader.take_path()?;
        reader.take(",")?;
        let body = match reader.take(r#""writable" : "Dollar""#) {
            Some(()) => Body::Writable,
            None => self.take_sum(reader)?,
        };
        reader.take("}")?;
        let earlier = self.places.insert(name.to_string(), self.bodies.len());
        self.bodies.push(body);
        earlier.is_none().then_some(())
    }

    fn read(text: &str) -> Option<Dictionary> {
        let mut reader = Reader { rest: text };
        let mut dictionary = Dictionary::default();
        reader.take(r#"{ "version" : "1" , "facts" : ["#)?;
        while !reader.is_at("]") {
            if !dictionary.bodies.is_empty() {
                reader.take(",")?;
            }
            dictionary.take_fact(&mut reader)?;
        }
        reader.take("}")?;
        reader.rest.trim_start().is_empty().then_some(dictionary)
    }
}

// ---- amounts, in cents, and results

pub const MOST: u128 = 999_999_999_999_999;

fn amount_in(text: &str) -> Option<i64> {
    let size = text.strip_prefix('-').unwrap_or(text);
    let (dollars, cents) = size.split_once('.').unwrap_or((size, "00"));
    let are_digits = dollars.bytes().chain(cents.bytes()).all(|b| b.is_ascii_digit());
    if !are_digits || cents.len() != 2 || dollars.len() > 13 {
        return None;
    }
    let size = 100 * dollars.parse::<i64>().ok()? + cents.parse::<i64>().ok()?;
    Some(if text.starts_with('-') { -size } else { size })
}

#[derive(Clone, Copy, PartialEq)]
pub enum Res {
    Complete(i64),
    Incomplete,
    Overflow,
}

fn sum(results: &[Res], operands: &[usize]) -> Res {
    let mut total = 0i128;
    let mut is_fault = false;
    for operand in operands {
        match results[*operand] {
            Res::Complete(amount) => total += i128::from(amount),
            Res::Incomplete => return Res::Incomplete,
            Res::Overflow => is_fault = true,
        }
    }
    if is_fault || total.unsigned_abs() > MOST {
        return Res::Overflow;
    }
    Res::Complete(total as i64)
}

// What works out the results behind a set.
enum Engine {
    /// The next get works all out.
    Anew,
    ByRank(Waiting),
    ByDifferences(Differences),
}

impl Engine {
    fn of(word: &str, dictionary: &Dictionary) -> Option<Engine> {
        match word {
            "run" => Some(Engine::Anew),
            "run-incremental" => Some(Engine::ByRank(Waiting::of(dictionary))),
            "run-differences" => Some(Engine::ByDifferences(Differences::of(&dictionary.bodies))),
            _ => None,
        }
    }
}

// The facts that may have moved, the lowest rank first.
#[derive(Default)]
struct Waiting {
    by_rank: BinaryHeap<Reverse<(usize, usize)>>,
    is_waiting: Vec<bool>,
    ranks: Vec<usize>,
    readers: Vec<Vec<usize>>,
}

impl Waiting {
    fn of(dictionary: &Dictionary) -> Waiting {
        let count = dictionary.bodies.len();
        let mut waiting =
            Waiting { is_waiting: vec![false; count], readers: vec![Vec::new(); count], ..Waiting::default() };
        for (place, body) in dictionary.bodies.iter().enumerate() {
            let mut rank = 0;
            if let Body::Sum(operands) = body {
                for operand in operands {
                    rank = rank.max(waiting.ranks[*operand] + 1);
                    if waiting.readers[*operand].last() != Some(&place) {
                        waiting.readers[*operand].push(place);
                    }
                }
            }
            waiting.ranks.push(rank);
        }
        waiting
    }

    fn push(&mut self, place: usize) {
        if !self.is_waiting[place] {
            self.is_waiting[place] = true;
            self.by_rank.push(Reverse((self.ranks[place], place)));
        }
    }

    fn push_readers(&mut self, place: usize) {
        for at in 0..self.readers[place].len() {
            self.push(self.readers[place][at]);
        }
    }

    fn pop(&mut self) -> Option<usize> {
        let Reverse((_, place)) = self.by_rank.pop()?;
        self.is_waiting[place] = false;
        Some(place)
    }
}

struct Session {
    dictionary: Dictionary,
    answers: Vec<Option<i64>>,
    results: Vec<Res>,
    is_current: bool,
    engine: Engine,
}

fn evaluate(dictionary: &Dictionary, answers: &[Option<i64>], results: &[Res], place: usize) -> Res {
    match &dictionary.bodies[place] {
        Body::Writable => answers[place].map_or(Res::Incomplete, Res::Complete),
        Body::Sum(operands) => sum(results, operands),
    }
}

impl Session {
    fn refresh(&mut self) {
        for place in 0..self.results.len() {
            self.results[place] = evaluate(&self.dictionary, &self.answers, &self.results, place);
        }
        self.is_current = true;
    }

    // Answers the fact at this place, and lets the engine know.
    fn answer(&mut self, place: usize, amount: i64) {
        self.answers[place] = Some(amount);
        match &mut self.engine {
            Engine::Anew => self.is_current = false,
            Engine::ByRank(waiting) => {
                waiting.push(place);
                while let Some(place) = waiting.pop() {
                    let result = evaluate(&self.dictionary, &self.answers, &self.results, place);
                    if result != self.results[place] {
                        self.results[place] = result;
                        waiting.push_readers(place);
                    }
                }
            }
            Engine::ByDifferences(differences) => differences.change(place, amount),
        }
    }

    fn set(&mut self, name: &str, value: &str, out: &mut impl Write) -> io::Result<()> {
        let Some(&place) = self.dictionary.places.get(name) else {
            return writeln!(out, "refused 3 UnknownFact");
        };
        if let Body::Sum(_) = self.dictionary.bodies[place] {
            return writeln!(out, "refused 5 WrongKind");
        }
        let Some(amount) = amount_in(value) else {
            return writeln!(out, "refused 6 BadValue");
        };
        self.answer(place, amount);
        writeln!(out, "ok")
    }

    fn result(&mut self, place: usize) -> Res {
        if let Engine::ByDifferences(differences) = &self.engine {
            return differences.result(place);
        }
        if !self.is_current {
            self.refresh();
        }
        self.results[place]
    }

    fn get(&mut self, name: &str, out: &mut impl Write) -> io::Result<()> {
        let Some(&place) = self.dictionary.places.get(name) else {
            return writeln!(out, "refused 3 UnknownFact");
        };
        match self.result(place) {
            Res::Complete(amount) => {
                let sign = if amount < 0 { "-" } else { "" };
                let size = amount.unsigned_abs();
                writeln!(out, "complete {sign}{}.{:02}", size / 100, size % 100)
            }
            Res::Incomplete => writeln!(out, "incomplete"),
            Res::Overflow => writeln!(out, "fault overflow"),
        }
    }
}

// ---- the script

enum Command<'a> {
    Set(&'a str, &'a str),
    Get(&'a str),
    Quit,
}

fn command_in(line: &[u8]) -> Option<Command<'_>> {
    let text = std::str::from_utf8(line).ok()?;
    match text.split_once(' ') {
        None => (text == "quit").then_some(Command::Quit),
        Some(("get", path)) => Some(Command::Get(name_in(path)?)),
        Some(("set", rest)) => {
            let (path, value) = rest.split_once(' ')?;
            Some(Command::Set(name_in(path)?, value))
        }
        Some(_) => None,
    }
}

fn run(dictionary: Dictionary, engine: Engine) -> io::Result<()> {
    let count = dictionary.bodies.len();
    let answers = vec![None; count];
    let results = vec![Res::Incomplete; count];
    let mut session = Session { dictionary, answers, results, is_current: true, engine };
    let mut script = io::stdin().lock();
    let mut out = io::stdout().lock();
    let mut kept = Vec::new();
    while script.read_until(b'\n', &mut kept)? > 0 {
        let whole = kept.strip_suffix(b"\n").unwrap_or(&kept);
        let line = whole.strip_suffix(b"\r").unwrap_or(whole);
        if whole.len() > 4_096 {
            writeln!(out, "refused 2 LongLine")?;
        } else if !line.is_empty() && line[0] != b'#' {
            match command_in(line) {
                Some(Command::Set(name, value)) => session.set(name, value, &mut out)?,
                Some(Command::Get(name)) => session.get(name, &mut out)?,
                Some(Command::Quit) => return Ok(()),
                None => writeln!(out, "refused 1 BadLine")?,
            }
        }
        kept.clear();
    }
    Ok(())
}

fn end(text: &str, status: i32) -> ! {
    println!("{text}");
    exit(status)
}

fn refuse_words() -> ! {
    end("usage: interview COMMAND ARGUMENTS", 2)
}

fn main() {
    let words: Vec<String> = std::env::args().skip(1).collect();
    let [word, name] = words.as_slice() else { refuse_words() };
    let text = std::fs::read_to_string(name).unwrap_or_else(|_| exit(3));
    let Some(dictionary) = Dictionary::read(&text) else {
        end("dictionary refused 3 Shape fact 0", 1);
    };
    let Some(engine) = Engine::of(word, &dictionary) else { refuse_words() };
    if run(dictionary, engine).is_err() {
        exit(5);
    }
}
