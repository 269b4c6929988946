// A plain reader of dictionaries to compare `interview check NAME` with: the same lines and exit statuses, in ordinary
// Rust. Build it by `rustc -O --edition 2021 plain_check.rs`.
//
// It reads the JSON whole into a tree of values, and this into facts with expressions; then it judges paths and uses,
// types and limits, and cycles. An accepted dictionary holds what a session would run over: constants and bounds as
// values, the facts that each use names, ranks. A check prints two counts of it.
//
// It does less than the program in two ways: it has the word `check` alone, and where memory is wanting it is aborted
// by Rust's allocator, without a status of its own.

// A check alone reads little of what an accepted dictionary holds.
#![allow(dead_code)]

use std::collections::hash_map::Entry;
use std::collections::{BTreeMap, HashMap};
use std::env;
use std::ffi::OsString;
use std::fmt;
use std::fs::File;
use std::io::{self, Read, Write};
use std::mem;
use std::process::ExitCode;

const MOST_BYTES: usize = 8_388_608;
const MOST_NESTING: usize = 127;
const MOST_FACTS: usize = 2_000;
const MOST_NODES: usize = 40_000;
const MOST_COLLECTIONS: usize = 32;
const MOST_ENUMS: usize = 200;
const MOST_OPTIONS: usize = 100;
const MOST_LIMITS: usize = 8;
const MOST_TABLES: usize = 100;
const MOST_ROWS: usize = 1_000;
const MOST_DEPTH: usize = 48;
const MOST_TEXT: usize = 1_000;

/// What is wrong with a dictionary. The first fault is the least one: by its kind, then by its fact, then by its node.
/// Facts and nodes are numbered from 1.
#[derive(Clone, Copy, PartialEq, Eq, PartialOrd, Ord)]
enum Fault {
    TooLong,
    NotJson,
    Shape(usize),
    TooMany(usize),
    TooDeep(usize),
    BadPath(usize),
    DuplicatePath(usize),
    NoCollection(usize),
    UnknownPath(usize),
    WrongPlace(usize),
    UnknownCheck(usize),
    IllTyped(usize, usize),
    BadLimit(usize),
    Cycle(usize),
}

impl fmt::Display for Fault {
    fn fmt(&self, out: &mut fmt::Formatter) -> fmt::Result {
        match self {
            Fault::TooLong => write!(out, "1 TooLong"),
            Fault::NotJson => write!(out, "2 NotJson"),
            Fault::Shape(fact) => write!(out, "3 Shape fact {fact}"),
            Fault::TooMany(what) => write!(out, "4 TooMany what {what}"),
            Fault::TooDeep(fact) => write!(out, "5 TooDeep fact {fact}"),
            Fault::BadPath(fact) => write!(out, "6 BadPath fact {fact}"),
            Fault::DuplicatePath(fact) => write!(out, "7 DuplicatePath fact {fact}"),
            Fault::NoCollection(fact) => write!(out, "8 NoCollection fact {fact}"),
            Fault::UnknownPath(fact) => write!(out, "9 UnknownPath fact {fact}"),
            Fault::WrongPlace(fact) => write!(out, "10 WrongPlace fact {fact}"),
            Fault::UnknownCheck(fact) => write!(out, "11 UnknownCheck fact {fact}"),
            Fault::IllTyped(fact, node) => write!(out, "12 IllTyped fact {fact} node {node}"),
            Fault::BadLimit(fact) => write!(out, "13 BadLimit fact {fact}"),
            Fault::Cycle(fact) => write!(out, "14 Cycle fact {fact}"),
        }
    }
}

/// The first of these faults, if there are any.
fn first_fault(faults: Vec<Fault>) -> Result<(), Fault> {
    faults.into_iter().min().map_or(Ok(()), Err)
}

// ---- JSON

/// A value of JSON. Where an object has a key twice, the last one counts.
enum Value {
    Null,
    Bool(bool),
    Number(f64),
    String(String),
    Array(Vec<Value>),
    Object(Object),
}

type Object = BTreeMap<String, Value>;

/// A part of the dictionary isn't of the form.
struct BadShape;

impl Value {
    fn text(&self) -> Result<&str, BadShape> {
        match self {
            Value::String(text) => Ok(text),
            _ => Err(BadShape),
        }
    }

    fn array(&self) -> Result<&[Value], BadShape> {
        match self {
            Value::Array(items) => Ok(items),
            _ => Err(BadShape),
        }
    }

    fn object(&self) -> Result<&Object, BadShape> {
        match self {
            Value::Object(object) => Ok(object),
            _ => Err(BadShape),
        }
    }
}

struct JsonParser<'t> {
    text: &'t str,
    at: usize,
    nesting: usize,
}

/// The value that these bytes are, None where they are no JSON.
fn parse_json(bytes: &[u8]) -> Option<Value> {
    let text = std::str::from_utf8(bytes).ok()?;
    let mut parser = JsonParser { text, at: 0, nesting: 0 };
    let value = parser.value()?;
    parser.skip_space();
    (parser.at == text.len()).then_some(value)
}

impl JsonParser<'_> {
    fn peek(&self) -> Option<u8> {
        self.text.as_bytes().get(self.at).copied()
    }

    fn next(&mut self) -> Option<u8> {
        let byte = self.peek()?;
        self.at += 1;
        Some(byte)
    }

    fn skip_space(&mut self) {
        while let Some(b' ' | b'\t' | b'\n' | b'\r') = self.peek() {
            self.at += 1;
        }
    }

    /// Whether this byte comes next; then it is taken.
    fn takes(&mut self, byte: u8) -> bool {
        let is_next = self.peek() == Some(byte);
        if is_next {
            self.at += 1;
        }
        is_next
    }

    /// The same behind white space.
    fn takes_mark(&mut self, mark: u8) -> bool {
        self.skip_space();
        self.takes(mark)
    }

    fn value(&mut self) -> Option<Value> {
        self.skip_space();
        match self.peek()? {
            b'"' => self.string().map(Value::String),
            b'[' => self.array(),
            b'{' => self.object(),
            b'-' | b'0'..=b'9' => self.number(),
            b'n' => self.word("null", Value::Null),
            b't' => self.word("true", Value::Bool(true)),
            b'f' => self.word("false", Value::Bool(false)),
            _ => None,
        }
    }

    fn word(&mut self, word: &str, value: Value) -> Option<Value> {
        let is_next = self.text[self.at..].starts_with(word);
        self.at += word.len();
        is_next.then_some(value)
    }

    /// Reads what stands between brackets and commas: all up to this closing bracket.
    fn items(&mut self, close: u8, mut read_item: impl FnMut(&mut Self) -> Option<()>) -> Option<()> {
        self.at += 1;
        self.nesting += 1;
        if self.nesting > MOST_NESTING {
            return None;
        }
        if !self.takes_mark(close) {
            read_item(self)?;
            while !self.takes_mark(close) {
                self.takes(b',').then_some(())?;
                read_item(self)?;
            }
        }
        self.nesting -= 1;
        Some(())
    }

    fn array(&mut self) -> Option<Value> {
        let mut array = Vec::new();
        self.items(b']', |parser| {
            array.push(parser.value()?);
            Some(())
        })?;
        Some(Value::Array(array))
    }

    fn object(&mut self) -> Option<Value> {
        let mut object = Object::new();
        self.items(b'}', |parser| {
            parser.skip_space();
            let key = if parser.peek()? == b'"' { parser.string()? } else { return None };
            parser.takes_mark(b':').then_some(())?;
            object.insert(key, parser.value()?);
            Some(())
        })?;
        Some(Value::Object(object))
    }

    fn string(&mut self) -> Option<String> {
        self.at += 1;
        let mut string = self.plain()?.to_string();
        loop {
            match self.next()? {
                b'"' => return Some(string),
                b'\\' => string.push(self.escape()?),
                _ => return None,
            }
            string.push_str(self.plain()?);
        }
    }

    /// What stands before the next quote, escape or control character of a string.
    fn plain(&mut self) -> Option<&str> {
        let rest = &self.text[self.at..];
        let length = rest.bytes().position(|b| b == b'"' || b == b'\\' || b < b' ')?;
        self.at += length;
        Some(&rest[..length])
    }

    fn escape(&mut self) -> Option<char> {
        match self.next()? {
            b'"' => Some('"'),
            b'\\' => Some('\\'),
            b'/' => Some('/'),
            b'b' => Some('\u{8}'),
            b'f' => Some('\u{c}'),
            b'n' => Some('\n'),
            b'r' => Some('\r'),
            b't' => Some('\t'),
            b'u' => self.unicode_escape(),
            _ => None,
        }
    }

    /// A code of four digits, or two that are a pair of surrogates.
    fn unicode_escape(&mut self) -> Option<char> {
        let first = self.four_hex_digits()?;
        if !(0xd800..0xdc00).contains(&first) {
            return char::from_u32(first.into());
        }
        (self.takes(b'\\') && self.takes(b'u')).then_some(())?;
        char::decode_utf16([first, self.four_hex_digits()?]).next()?.ok()
    }

    fn four_hex_digits(&mut self) -> Option<u16> {
        let mut code = 0;
        for _ in 0..4 {
            code = 16 * code + char::from(self.next()?).to_digit(16)? as u16;
        }
        Some(code)
    }

    fn number(&mut self) -> Option<Value> {
        let start = self.at;
        self.takes(b'-');
        if !self.takes(b'0') {
            self.digits()?;
        }
        if self.takes(b'.') {
            self.digits()?;
        }
        if self.takes(b'e') || self.takes(b'E') {
            let _ = self.takes(b'+') || self.takes(b'-');
            self.digits()?;
        }
        let number: f64 = self.text[start..self.at].parse().ok()?;
        number.is_finite().then_some(Value::Number(number))
    }

    fn digits(&mut self) -> Option<()> {
        let start = self.at;
        while let Some(b'0'..=b'9') = self.peek() {
            self.at += 1;
        }
        (self.at > start).then_some(())
    }
}

// ---- paths

/// A name begins with a letter and has at most 64 letters, digits, `_` and `-`.
fn name_in(text: &str) -> Option<&str> {
    let is_name = text.len() <= 64
        && text.starts_with(|c: char| c.is_ascii_alphabetic())
        && text.bytes().all(|b| b.is_ascii_alphanumeric() || b == b'_' || b == b'-');
    is_name.then_some(text)
}

#[derive(Clone, Copy, PartialEq, Eq, Hash)]
enum FactPath<'a> {
    /// `/N`
    Global(&'a str),
    /// `/N/*/M`, a fact of each member of the collection `/N`
    Member(&'a str, &'a str),
}

impl<'a> FactPath<'a> {
    fn parse(text: &'a str) -> Option<FactPath<'a>> {
        match UsePath::parse(text)? {
            UsePath::Global(name) => Some(FactPath::Global(name)),
            UsePath::Each(list, name) => Some(FactPath::Member(list, name)),
            _ => None,
        }
    }
}

/// A path in an expression.
#[derive(Clone, Copy)]
enum UsePath<'a> {
    /// `/N`
    Global(&'a str),
    /// `../N`
    Sibling(&'a str),
    /// `N`
    Inner(&'a str),
    /// `/N/*/M`
    Each(&'a str, &'a str),
    /// `/N/M`
    Through(&'a str, &'a str),
    /// `../N/M`
    SiblingThrough(&'a str, &'a str),
}

impl<'a> UsePath<'a> {
    fn parse(text: &'a str) -> Option<UsePath<'a>> {
        if let Some(rest) = text.strip_prefix("../") {
            return Some(match rest.split_once('/') {
                None => UsePath::Sibling(name_in(rest)?),
                Some((item, field)) => UsePath::SiblingThrough(name_in(item)?, name_in(field)?),
            });
        }
        let Some(rest) = text.strip_prefix('/') else {
            return name_in(text).map(UsePath::Inner);
        };
        let Some((first, second)) = rest.split_once('/') else {
            return name_in(rest).map(UsePath::Global);
        };
        Some(match second.strip_prefix("*/") {
            Some(field) => UsePath::Each(name_in(first)?, name_in(field)?),
            None => UsePath::Through(name_in(first)?, name_in(second)?),
        })
    }
}

// ---- types and values

/// A type. The base of a collection or an item is None where a fact states it by a path that isn't `/N`.
#[derive(Clone, Copy, PartialEq, Eq)]
enum Type<'a> {
    Boolean,
    Int,
    Dollar,
    Rational,
    Day,
    Text,
    Enum(&'a str),
    Collection(Option<&'a str>),
    Item(Option<&'a str>),
}

impl<'a> Type<'a> {
    fn named(name: &str) -> Option<Type<'a>> {
        match name {
            "Boolean" => Some(Type::Boolean),
            "Int" => Some(Type::Int),
            "Dollar" => Some(Type::Dollar),
            "Rational" => Some(Type::Rational),
            "Day" => Some(Type::Day),
            "Text" => Some(Type::Text),
            _ => None,
        }
    }

    /// A type that a writable and a derived fact may state.
    fn parse_scalar(text: &'a str) -> Result<Type<'a>, BadShape> {
        Type::named(text).or_else(|| Some(Type::Enum(name_in(between("Enum(", text)?)?))).ok_or(BadShape)
    }

    /// The type of a writable fact with this path.
    fn parse_writable(text: &'a str, path: Option<FactPath<'a>>) -> Result<Type<'a>, BadShape> {
        match (text, path) {
            ("Collection", Some(FactPath::Global(name))) => Ok(Type::Collection(Some(name))),
            ("Collection", _) => Ok(Type::Collection(None)),
            _ => Type::parse_scalar(text),
        }
    }

    fn parse_derived(text: &'a str) -> Result<Type<'a>, BadShape> {
        if let Some(path) = between("Collection(", text) {
            return Ok(Type::Collection(path.strip_prefix('/').and_then(name_in)));
        }
        if let Some(path) = between("Item(", text) {
            return Ok(Type::Item(path.strip_prefix('/').and_then(name_in)));
        }
        Type::parse_scalar(text)
    }

    fn is_collection(self) -> bool {
        matches!(self, Type::Collection(_))
    }

    fn is_item(self) -> bool {
        matches!(self, Type::Item(_))
    }

    fn is_ordered(self) -> bool {
        matches!(self, Type::Int | Type::Dollar | Type::Rational | Type::Day)
    }
}

/// What stands between this front and a last `)`.
fn between<'a>(front: &str, text: &'a str) -> Option<&'a str> {
    text.strip_prefix(front)?.strip_suffix(')')
}

/// A value that a text in the dictionary spells.
#[derive(Clone, Copy)]
enum Constant<'a> {
    Boolean(bool),
    Int(i64),
    /// In cents.
    Dollar(i64),
    /// In lowest terms, with the sign at the numerator.
    Rational(i64, i64),
    /// The days since 1970-01-01.
    Day(i64),
    Text(&'a str),
    /// An enum, and the place of one of its options.
    Choice(&'a str, usize),
}

impl<'a> Constant<'a> {
    fn parse(ty: Type, text: &'a str) -> Option<Constant<'a>> {
        match ty {
            Type::Int => parse_int(text).map(Constant::Int),
            Type::Dollar => parse_dollar(text).map(Constant::Dollar),
            Type::Rational => parse_rational(text),
            Type::Day => parse_day(text).map(Constant::Day),
            Type::Text => (text.len() <= MOST_TEXT && !text.contains(char::is_control)).then_some(Constant::Text(text)),
            _ => None,
        }
    }

    fn type_of(self) -> Type<'a> {
        match self {
            Constant::Boolean(_) => Type::Boolean,
            Constant::Int(_) => Type::Int,
            Constant::Dollar(_) => Type::Dollar,
            Constant::Rational(..) => Type::Rational,
            Constant::Day(_) => Type::Day,
            Constant::Text(_) => Type::Text,
            Constant::Choice(list, _) => Type::Enum(list),
        }
    }
}

/// The number of one digit or more, at most this many.
fn parse_digits(text: &str, most: usize) -> Option<i64> {
    if text.len() > most || !text.bytes().all(|b| b.is_ascii_digit()) {
        return None;
    }
    text.parse().ok()
}

fn split_sign(text: &str) -> (i64, &str) {
    text.strip_prefix('-').map_or((1, text), |size| (-1, size))
}

fn parse_int(text: &str) -> Option<i64> {
    let (sign, size) = split_sign(text);
    Some(sign * parse_digits(size, 15)?)
}

fn parse_dollar(text: &str) -> Option<i64> {
    let (sign, size) = split_sign(text);
    let (dollars, cents) = size.split_once('.').unwrap_or((size, "00"));
    if cents.len() != 2 {
        return None;
    }
    Some(sign * (100 * parse_digits(dollars, 13)? + parse_digits(cents, 2)?))
}

fn parse_rational<'a>(text: &str) -> Option<Constant<'a>> {
    const MOST: i64 = 1_000_000_000_000;
    let (sign, size) = split_sign(text);
    let (above, below) = size.split_once('/').unwrap_or((size, "1"));
    let (above, below) = (parse_digits(above, 15)?, parse_digits(below, 15)?);
    if below == 0 {
        return None;
    }
    let divisor = greatest_common_divisor(above, below);
    let (above, below) = (above / divisor, below / divisor);
    (above <= MOST && below <= MOST).then_some(Constant::Rational(sign * above, below))
}

fn greatest_common_divisor(mut a: i64, mut b: i64) -> i64 {
    while b != 0 {
        (a, b) = (b, a % b);
    }
    a
}

/// The number of the day `YYYY-MM-DD`.
fn parse_day(text: &str) -> Option<i64> {
    let (year, rest) = text.split_once('-')?;
    let (month, day) = rest.split_once('-')?;
    if (year.len(), month.len(), day.len()) != (4, 2, 2) {
        return None;
    }
    let (year, month, day) = (parse_digits(year, 4)?, parse_digits(month, 2)?, parse_digits(day, 2)?);
    let is_leap = year % 4 == 0 && (year % 100 != 0 || year % 400 == 0);
    let days = match month {
        2 => 28 + i64::from(is_leap),
        4 | 6 | 9 | 11 => 30,
        1..=12 => 31,
        _ => return None,
    };
    if !(1800..=2199).contains(&year) || !(1..=days).contains(&day) {
        return None;
    }
    // Years that begin in March, so that a leap day is the last day of its year.
    let (year, month) = if month < 3 { (year - 1, month + 9) } else { (year, month - 3) };
    Some(365 * year + year / 4 - year / 100 + year / 400 + (153 * month + 2) / 5 + day - 719_469)
}

// ---- facts and expressions

/// A dictionary: first as it is read, and with bounds and ranks once it is accepted.
struct Dictionary<'a> {
    enums: Enums<'a>,
    facts: Vec<Fact<'a>>,
    bodies: Vec<Body<'a>>,
    nodes: usize,
    bounds: Vec<Vec<Bound<'a>>>,
    ranks: Vec<usize>,
}

/// Each enum by its name, with the place of each option.
type Enums<'a> = HashMap<&'a str, HashMap<&'a str, usize>>;

/// Each table by its name.
type Tables<'a> = HashMap<&'a str, Table<'a>>;

/// What types a table has: of its keys, and of its values.
#[derive(Clone, Copy)]
struct Table<'a> {
    from: Type<'a>,
    to: Type<'a>,
}

/// What is said of a fact besides its expressions.
struct Fact<'a> {
    /// None where the text is no path of a fact.
    path: Option<FactPath<'a>>,
    ty: Type<'a>,
    is_writable: bool,
    limits: Vec<Limit<'a>>,
}

impl Fact<'_> {
    fn is_writable_collection(&self) -> bool {
        self.is_writable && self.ty.is_collection()
    }
}

/// The expressions of a fact.
struct Body<'a> {
    main: Option<Expr<'a>>,
    conditional: Option<(Expr<'a>, Expr<'a>)>,
    placeholder: Option<Expr<'a>>,
}

enum Expr<'a> {
    /// None where the text is no value of the type.
    Constant(Option<Constant<'a>>),
    Dependency(Use<'a>),
    IsComplete(Use<'a>),
    CollectionSize(Use<'a>),
    CollectionSum(Use<'a>),
    Count(Use<'a>),
    Filter(Use<'a>, Box<Expr<'a>>),
    Find(Use<'a>, Box<Expr<'a>>),
    Switch(Vec<(Expr<'a>, Expr<'a>)>),
    Lookup(Table<'a>, Box<Expr<'a>>),
    Apply(Operator, Vec<Expr<'a>>),
}

/// A path as it is used, and the places of the facts that it names.
struct Use<'a> {
    /// None where the text is no path.
    path: Option<UsePath<'a>>,
    first: Option<usize>,
    second: Option<usize>,
}

impl<'a> Use<'a> {
    fn read(json: &'a Value) -> Result<Use<'a>, BadShape> {
        Ok(Use { path: UsePath::parse(json.text()?), first: None, second: None })
    }

    fn last(&self) -> Option<usize> {
        self.second.or(self.first)
    }
}

#[derive(Clone, Copy)]
enum Operator {
    All,
    Any,
    Not,
    Add,
    Subtract,
    Multiply,
    Divide,
    GreaterOf,
    LesserOf,
    Equal,
    NotEqual,
    GreaterThan,
    LessThan,
    GreaterThanOrEqual,
    LessThanOrEqual,
    Round,
    YearOf,
    AddDays,
    LaterMonth,
    Between,
    PartOfDate,
    Multiple,
}

/// The versions, each with all that those before it have: the second has conditionals, the last the operators of laws.
#[derive(Clone, Copy, PartialEq, Eq, PartialOrd, Ord)]
enum Version {
    First,
    Second,
    Law,
}

impl Operator {
    /// The operator of this name, None where the version has none that takes so many operands.
    fn named(version: Version, name: &str, count: usize) -> Option<Operator> {
        match (name, count) {
            _ if version < Version::Law => Operator::of_all_versions(name, count),
            ("AddMonths" | "AddYears", 2) => Some(Operator::LaterMonth),
            ("DaysBetween" | "AgeOn", 2) => Some(Operator::Between),
            ("MonthOf" | "DayOf", 1) => Some(Operator::PartOfDate),
            ("RoundUp" | "RoundDown" | "RoundNearest", 2) => Some(Operator::Multiple),
            _ => Operator::of_all_versions(name, count),
        }
    }

    fn of_all_versions(name: &str, count: usize) -> Option<Operator> {
        match (name, count) {
            ("All", 1..) => Some(Operator::All),
            ("Any", 1..) => Some(Operator::Any),
            ("Not", 1) => Some(Operator::Not),
            ("Add", 1..) => Some(Operator::Add),
            ("Subtract", 2..) => Some(Operator::Subtract),
            ("Multiply", 2) => Some(Operator::Multiply),
            ("Divide", 2) => Some(Operator::Divide),
            ("GreaterOf", 1..) => Some(Operator::GreaterOf),
            ("LesserOf", 1..) => Some(Operator::LesserOf),
            ("Equal", 2) => Some(Operator::Equal),
            ("NotEqual", 2) => Some(Operator::NotEqual),
            ("GreaterThan", 2) => Some(Operator::GreaterThan),
            ("LessThan", 2) => Some(Operator::LessThan),
            ("GreaterThanOrEqual", 2) => Some(Operator::GreaterThanOrEqual),
            ("LessThanOrEqual", 2) => Some(Operator::LessThanOrEqual),
            ("Round", 1) => Some(Operator::Round),
            ("YearOf", 1) => Some(Operator::YearOf),
            ("AddDays", 2) => Some(Operator::AddDays),
            _ => None,
        }
    }

    /// The type of the result, None where operands of these types don't go together.
    fn result_type<'a>(self, operands: &[Type<'a>]) -> Option<Type<'a>> {
        let first = operands[0];
        let are_equal = operands.iter().all(|ty| *ty == first);
        match self {
            Operator::All | Operator::Any | Operator::Not => {
                (are_equal && first == Type::Boolean).then_some(Type::Boolean)
            }
            Operator::Add | Operator::Subtract => match first {
                Type::Int | Type::Dollar if are_equal => Some(first),
                Type::Rational if are_equal && operands.len() == 2 => Some(first),
                _ => None,
            },
            Operator::Multiply => match (first, operands[1]) {
                (Type::Int, Type::Int) => Some(Type::Int),
                (Type::Dollar, Type::Int | Type::Rational) => Some(Type::Dollar),
                (Type::Int | Type::Rational, Type::Dollar) => Some(Type::Dollar),
                (Type::Int | Type::Rational, Type::Rational) => Some(Type::Rational),
                (Type::Rational, Type::Int) => Some(Type::Rational),
                _ => None,
            },
            Operator::Divide => match (first, operands[1]) {
                (Type::Dollar, Type::Int | Type::Rational) => Some(Type::Dollar),
                (Type::Int | Type::Rational | Type::Dollar, _) if are_equal => Some(Type::Rational),
                _ => None,
            },
            Operator::GreaterOf | Operator::LesserOf => (are_equal && first.is_ordered()).then_some(first),
            Operator::Equal | Operator::NotEqual => {
                (are_equal && !first.is_collection() && !first.is_item()).then_some(Type::Boolean)
            }
            Operator::GreaterThan | Operator::LessThan | Operator::GreaterThanOrEqual | Operator::LessThanOrEqual => {
                (are_equal && first.is_ordered()).then_some(Type::Boolean)
            }
            Operator::Round => (first == Type::Dollar).then_some(Type::Dollar),
            Operator::YearOf | Operator::PartOfDate => (first == Type::Day).then_some(Type::Int),
            Operator::AddDays | Operator::LaterMonth => (operands == [Type::Day, Type::Int]).then_some(Type::Day),
            Operator::Between => (operands == [Type::Day, Type::Day]).then_some(Type::Int),
            Operator::Multiple => {
                let is_amount = matches!(first, Type::Dollar | Type::Rational);
                (is_amount && operands[1] == Type::Dollar).then_some(Type::Dollar)
            }
        }
    }
}

// ---- limits

const CHECKS: [&str; 4] = ["digits", "nine-digits", "printable-ascii", "trimmed"];

fn place_of_check(name: &str) -> Option<usize> {
    CHECKS.iter().position(|check| *check == name)
}

/// A limit with its text.
#[derive(Clone, Copy)]
enum Limit<'a> {
    Min(&'a str),
    Max(&'a str),
    MaxLength(&'a str),
    Check(&'a str),
}

/// A limit of an accepted fact.
enum Bound<'a> {
    Min(Constant<'a>),
    Max(Constant<'a>),
    MaxLength(usize),
    /// The place of its check in the list of them.
    Check(usize),
}

impl<'a> Limit<'a> {
    fn read(json: &'a Value) -> Result<Limit<'a>, BadShape> {
        let [kind, text] = json.array()? else {
            return Err(BadShape);
        };
        let limit = match kind.text()? {
            "Min" => Limit::Min,
            "Max" => Limit::Max,
            "MaxLength" => Limit::MaxLength,
            "Check" => Limit::Check,
            _ => return Err(BadShape),
        };
        Ok(limit(text.text()?))
    }

    fn bound(self, ty: Type) -> Option<Bound<'a>> {
        match self {
            Limit::Min(text) if ty.is_ordered() => Constant::parse(ty, text).map(Bound::Min),
            Limit::Max(text) if ty.is_ordered() => Constant::parse(ty, text).map(Bound::Max),
            Limit::MaxLength(text) if ty == Type::Text => {
                let length = parse_int(text)?;
                (0..=MOST_TEXT as i64).contains(&length).then_some(Bound::MaxLength(length as usize))
            }
            Limit::Check(name) if ty == Type::Text => place_of_check(name).map(Bound::Check),
            _ => None,
        }
    }

    fn names_no_check(&self) -> bool {
        matches!(self, Limit::Check(name) if place_of_check(name).is_none())
    }
}

/// The bounds of a fact, None where its limits don't fit its type, or one that may stand once stands twice.
fn bounds_of<'a>(fact: &Fact<'a>) -> Option<Vec<Bound<'a>>> {
    let mut bounds = Vec::new();
    for (place, limit) in fact.limits.iter().enumerate() {
        let is_same_kind = |earlier| mem::discriminant(earlier) == mem::discriminant(limit);
        if !matches!(limit, Limit::Check(_)) && fact.limits[..place].iter().any(is_same_kind) {
            return None;
        }
        bounds.push(limit.bound(fact.ty)?);
    }
    Some(bounds)
}

// ---- from JSON to facts

/// Reads the parts of a dictionary, and keeps what is counted of them.
struct Reader<'a> {
    enums: Enums<'a>,
    tables: Tables<'a>,
    version: Version,
    /// Of the fact that is read.
    number: usize,
    nodes: usize,
    /// The first fact with an expression that is too deep.
    too_deep: Option<usize>,
}

fn ensure(holds: bool) -> Result<(), BadShape> {
    holds.then_some(()).ok_or(BadShape)
}

fn ensure_keys(object: &Object, keys: &[&str]) -> Result<(), BadShape> {
    ensure(object.keys().all(|key| keys.contains(&key.as_str())))
}

fn member<'a>(object: &'a Object, key: &str) -> Result<&'a Value, BadShape> {
    object.get(key).ok_or(BadShape)
}

fn read_dictionary(json: &Value) -> Result<Dictionary<'_>, Fault> {
    let (mut reader, facts_json) = read_top(json).map_err(|BadShape| Fault::Shape(0))?;
    let mut facts = Vec::new();
    let mut bodies = Vec::new();
    for fact_json in facts_json {
        reader.number += 1;
        let (fact, body) = reader.fact(fact_json).map_err(|BadShape| Fault::Shape(reader.number))?;
        facts.push(fact);
        bodies.push(body);
    }
    let Reader { enums, nodes, too_deep, .. } = reader;
    let are_exceeded = [
        facts.len() > MOST_FACTS,
        nodes > MOST_NODES,
        facts.iter().filter(|fact| fact.is_writable_collection()).count() > MOST_COLLECTIONS,
        enums.len() > MOST_ENUMS,
        enums.values().any(|options| options.len() > MOST_OPTIONS),
        facts.iter().any(|fact| fact.limits.len() > MOST_LIMITS),
    ];
    if let Some(place) = are_exceeded.iter().position(|is_exceeded| *is_exceeded) {
        return Err(Fault::TooMany(place + 1));
    }
    if let Some(fact) = too_deep {
        return Err(Fault::TooDeep(fact));
    }
    Ok(Dictionary { enums, facts, bodies, nodes, bounds: Vec::new(), ranks: Vec::new() })
}

/// All but the facts, which come as they stand.
fn read_top(json: &Value) -> Result<(Reader<'_>, &[Value]), BadShape> {
    let top = json.object()?;
    ensure_keys(top, &["version", "facts", "enums", "tables", "description"])?;
    let version = match member(top, "version")?.text()? {
        "1" => Version::First,
        "2" => Version::Second,
        "law-1" => Version::Law,
        _ => return Err(BadShape),
    };
    top.get("description").map(Value::text).transpose()?;
    let mut enums = Enums::new();
    for json in top.get("enums").map(Value::array).transpose()?.unwrap_or(&[]) {
        let (name, options) = read_enum(json)?;
        ensure(enums.insert(name, options).is_none())?;
    }
    let tables = match top.get("tables") {
        Some(json) if version == Version::Law => read_tables(json, &enums)?,
        Some(_) => return Err(BadShape),
        None => Tables::new(),
    };
    let facts = member(top, "facts")?.array()?;
    Ok((Reader { enums, tables, version, number: 0, nodes: 0, too_deep: None }, facts))
}

fn read_tables<'a>(json: &'a Value, enums: &Enums<'a>) -> Result<Tables<'a>, BadShape> {
    let mut tables = Tables::new();
    for json in json.array()? {
        let (name, table) = read_table(json, enums)?;
        ensure(tables.insert(name, table).is_none())?;
    }
    ensure(tables.len() <= MOST_TABLES)?;
    Ok(tables)
}

fn read_table<'a>(json: &'a Value, enums: &Enums<'a>) -> Result<(&'a str, Table<'a>), BadShape> {
    let object = json.object()?;
    ensure_keys(object, &["name", "from", "to", "rows", "else", "description"])?;
    object.get("description").map(Value::text).transpose()?;
    let name = name_in(member(object, "name")?.text()?).ok_or(BadShape)?;
    let from = Type::parse_scalar(member(object, "from")?.text()?)?;
    ensure(matches!(from, Type::Int | Type::Dollar | Type::Day))?;
    let to = Type::parse_scalar(member(object, "to")?.text()?)?;
    read_entry(to, member(object, "else")?, enums)?;
    let rows = member(object, "rows")?.array()?;
    ensure(rows.len() <= MOST_ROWS)?;
    let mut below = None;
    for row in rows {
        let [key, value] = row.array()? else {
            return Err(BadShape);
        };
        let key = match Constant::parse(from, key.text()?) {
            Some(Constant::Int(number) | Constant::Dollar(number) | Constant::Day(number)) => number,
            _ => return Err(BadShape),
        };
        ensure(below.map_or(true, |below| below < key))?;
        below = Some(key);
        read_entry(to, value, enums)?;
    }
    Ok((name, Table { from, to }))
}

/// A value of a table.
fn read_entry(to: Type, json: &Value, enums: &Enums) -> Result<(), BadShape> {
    let text = json.text()?;
    ensure(match to {
        Type::Boolean => text == "true" || text == "false",
        Type::Enum(list) => enums.get(list).is_some_and(|options| options.contains_key(text)),
        _ => Constant::parse(to, text).is_some(),
    })
}

fn read_enum(json: &Value) -> Result<(&str, HashMap<&str, usize>), BadShape> {
    let object = json.object()?;
    ensure_keys(object, &["name", "options"])?;
    let name = name_in(member(object, "name")?.text()?).ok_or(BadShape)?;
    let mut options = HashMap::new();
    for (place, option) in member(object, "options")?.array()?.iter().enumerate() {
        let option = name_in(option.text()?).ok_or(BadShape)?;
        ensure(options.insert(option, place).is_none())?;
    }
    ensure(!options.is_empty())?;
    Ok((name, options))
}

impl<'a> Reader<'a> {
    fn fact(&mut self, json: &'a Value) -> Result<(Fact<'a>, Body<'a>), BadShape> {
        let object = json.object()?;
        let path = FactPath::parse(member(object, "path")?.text()?);
        object.get("description").map(Value::text).transpose()?;
        let placeholder = object.get("placeholder").map(|json| self.expr(json, 1)).transpose()?;
        if let Some(stated) = object.get("writable") {
            ensure_keys(object, &["path", "writable", "limits", "placeholder", "description"])?;
            let ty = Type::parse_writable(stated.text()?, path)?;
            let limits = object.get("limits").map(Value::array).transpose()?.unwrap_or(&[]);
            let limits = limits.iter().map(Limit::read).collect::<Result<_, _>>()?;
            let fact = Fact { path, ty, is_writable: true, limits };
            return Ok((fact, Body { main: None, conditional: None, placeholder }));
        }
        ensure_keys(object, &["path", "derived", "is", "conditional", "placeholder", "description"])?;
        let ty = Type::parse_derived(member(object, "derived")?.text()?)?;
        let main = Some(self.expr(member(object, "is")?, 1)?);
        let conditional = object.get("conditional").map(|json| self.conditional(json)).transpose()?;
        let fact = Fact { path, ty, is_writable: false, limits: Vec::new() };
        Ok((fact, Body { main, conditional, placeholder }))
    }

    fn conditional(&mut self, json: &'a Value) -> Result<(Expr<'a>, Expr<'a>), BadShape> {
        match json.array()? {
            [test, value] if self.version >= Version::Second => Ok((self.expr(test, 1)?, self.expr(value, 1)?)),
            _ => Err(BadShape),
        }
    }

    /// Reads an expression whose root stands at this depth.
    fn expr(&mut self, json: &'a Value, depth: usize) -> Result<Expr<'a>, BadShape> {
        let (name, operands) = json.array()?.split_first().ok_or(BadShape)?;
        self.nodes += 1;
        if depth > MOST_DEPTH {
            self.too_deep.get_or_insert(self.number);
        }
        match (name.text()?, operands) {
            ("Dependency", [path]) => Ok(Expr::Dependency(Use::read(path)?)),
            ("IsComplete", [path]) => Ok(Expr::IsComplete(Use::read(path)?)),
            ("CollectionSize", [path]) => Ok(Expr::CollectionSize(Use::read(path)?)),
            ("CollectionSum", [path]) => Ok(Expr::CollectionSum(Use::read(path)?)),
            ("Count", [path]) => Ok(Expr::Count(Use::read(path)?)),
            ("Filter", [path, test]) => Ok(Expr::Filter(Use::read(path)?, Box::new(self.expr(test, depth + 1)?))),
            ("Find", [path, test]) => Ok(Expr::Find(Use::read(path)?, Box::new(self.expr(test, depth + 1)?))),
            ("True", []) => Ok(Expr::Constant(Some(Constant::Boolean(true)))),
            ("False", []) => Ok(Expr::Constant(Some(Constant::Boolean(false)))),
            (name @ ("Int" | "Dollar" | "Rational" | "Day" | "Text"), [text]) => {
                let text = text.text()?;
                Ok(Expr::Constant(Type::named(name).and_then(|ty| Constant::parse(ty, text))))
            }
            ("Enum", [list, option]) => Ok(Expr::Constant(self.choice(list.text()?, option.text()?))),
            ("Switch", [_, ..]) => {
                let cases = operands.iter().map(|json| self.case(json, depth + 1)).collect::<Result<_, _>>()?;
                Ok(Expr::Switch(cases))
            }
            ("Lookup", [name, operand]) if self.version == Version::Law => {
                let table = *self.tables.get(name.text()?).ok_or(BadShape)?;
                Ok(Expr::Lookup(table, Box::new(self.expr(operand, depth + 1)?)))
            }
            (name, _) => {
                let operator = Operator::named(self.version, name, operands.len()).ok_or(BadShape)?;
                let operands = operands.iter().map(|json| self.expr(json, depth + 1)).collect::<Result<_, _>>()?;
                Ok(Expr::Apply(operator, operands))
            }
        }
    }

    fn case(&mut self, json: &'a Value, depth: usize) -> Result<(Expr<'a>, Expr<'a>), BadShape> {
        match json.array()? {
            [name, test, value] if name.text()? == "Case" => Ok((self.expr(test, depth)?, self.expr(value, depth)?)),
            _ => Err(BadShape),
        }
    }

    fn choice(&self, list: &'a str, option: &str) -> Option<Constant<'a>> {
        let place = self.enums.get(list)?.get(option)?;
        Some(Constant::Choice(list, *place))
    }
}

// ---- paths and uses

/// Of the innermost Filter or Find in whose condition an expression stands, if any: the collection of the members that
/// the condition is asked of, where it is known.
type Condition<'a> = Option<Option<&'a str>>;

/// What a node wants of its path.
#[derive(Clone, Copy, PartialEq, Eq)]
enum Wanted {
    Fact,
    Collection,
    Field,
}

/// Finds what the uses of each fact name.
struct Resolver<'d, 'a> {
    facts: &'d [Fact<'a>],
    places: HashMap<FactPath<'a>, usize>,
    faults: Vec<Fault>,
    /// Of the fact whose expressions are walked.
    number: usize,
    collection: Option<&'a str>,
    mentions: Vec<usize>,
}

/// Resolves the uses in these bodies, and gives what each fact mentions.
fn resolve<'a>(facts: &[Fact<'a>], bodies: &mut [Body<'a>]) -> Result<Vec<Vec<usize>>, Fault> {
    let mut places = HashMap::new();
    let mut faults = Vec::new();
    for (place, fact) in facts.iter().enumerate() {
        match fact.path.map(|path| places.entry(path)) {
            None => faults.push(Fault::BadPath(place + 1)),
            Some(Entry::Occupied(_)) => faults.push(Fault::DuplicatePath(place + 1)),
            Some(Entry::Vacant(entry)) => {
                entry.insert(place);
            }
        }
    }
    let mut resolver = Resolver { facts, places, faults, number: 0, collection: None, mentions: Vec::new() };
    let mentions = facts.iter().zip(bodies).map(|(fact, body)| resolver.fact(fact, body)).collect();
    first_fault(resolver.faults)?;
    Ok(mentions)
}

impl<'a> Resolver<'_, 'a> {
    fn find(&self, path: FactPath<'a>) -> Option<usize> {
        self.places.get(&path).copied()
    }

    fn is_writable_collection(&self, name: &'a str) -> bool {
        self.find(FactPath::Global(name)).is_some_and(|place| self.facts[place].is_writable_collection())
    }

    fn fact(&mut self, fact: &Fact<'a>, body: &mut Body<'a>) -> Vec<usize> {
        self.number += 1;
        self.collection = match fact.path {
            Some(FactPath::Member(name, _)) => Some(name),
            _ => None,
        };
        if self.collection.is_some_and(|name| !self.is_writable_collection(name)) {
            self.faults.push(Fault::NoCollection(self.number));
        }
        if let (false, Type::Collection(base) | Type::Item(base)) = (fact.is_writable, fact.ty) {
            match base {
                None => self.faults.push(Fault::BadPath(self.number)),
                Some(name) if !self.is_writable_collection(name) => self.faults.push(Fault::NoCollection(self.number)),
                Some(_) => {}
            }
        }
        if fact.ty.is_collection() && self.collection.is_some() {
            self.faults.push(Fault::WrongPlace(self.number));
        }
        if fact.limits.iter().any(Limit::names_no_check) {
            self.faults.push(Fault::UnknownCheck(self.number));
        }
        if let Some(main) = &mut body.main {
            self.expr(main, None);
        }
        if let Some((test, value)) = &mut body.conditional {
            self.expr(test, None);
            self.expr(value, None);
        }
        if let Some(placeholder) = &mut body.placeholder {
            self.expr(placeholder, None);
        }
        mem::take(&mut self.mentions)
    }

    fn expr(&mut self, expr: &mut Expr<'a>, condition: Condition<'a>) {
        match expr {
            Expr::Constant(_) => {}
            Expr::Dependency(used) | Expr::IsComplete(used) => self.resolve(used, Wanted::Fact, condition),
            Expr::CollectionSize(used) => self.resolve(used, Wanted::Collection, condition),
            Expr::CollectionSum(used) | Expr::Count(used) => {
                if condition.is_some() {
                    self.faults.push(Fault::WrongPlace(self.number));
                }
                self.resolve(used, Wanted::Field, condition);
            }
            Expr::Filter(used, test) | Expr::Find(used, test) => {
                if condition.is_some() {
                    self.faults.push(Fault::WrongPlace(self.number));
                }
                self.resolve(used, Wanted::Collection, condition);
                let base = match used.first.map(|place| self.facts[place].ty) {
                    Some(Type::Collection(base)) => base.filter(|name| self.find(FactPath::Global(name)).is_some()),
                    _ => None,
                };
                self.expr(test, Some(base));
            }
            Expr::Switch(cases) => {
                for (test, value) in cases {
                    self.expr(test, condition);
                    self.expr(value, condition);
                }
            }
            Expr::Lookup(_, operand) => self.expr(operand, condition),
            Expr::Apply(_, operands) => {
                for operand in operands {
                    self.expr(operand, condition);
                }
            }
        }
    }

    fn resolve(&mut self, used: &mut Use<'a>, wanted: Wanted, condition: Condition<'a>) {
        let Some(path) = used.path else {
            self.faults.push(Fault::BadPath(self.number));
            return;
        };
        let is_in_place = match path {
            UsePath::Global(_) => wanted != Wanted::Field,
            UsePath::Sibling(_) | UsePath::SiblingThrough(..) => wanted == Wanted::Fact && self.collection.is_some(),
            UsePath::Inner(_) => wanted == Wanted::Fact && condition.is_some(),
            UsePath::Each(..) => wanted == Wanted::Field,
            UsePath::Through(..) => wanted == Wanted::Fact,
        };
        let first_path = match path {
            UsePath::Global(name) | UsePath::Each(name, _) | UsePath::Through(name, _) => Some(FactPath::Global(name)),
            UsePath::Sibling(name) | UsePath::SiblingThrough(name, _) => {
                self.collection.map(|list| FactPath::Member(list, name))
            }
            UsePath::Inner(name) => condition.flatten().map(|list| FactPath::Member(list, name)),
        };
        used.first = first_path.and_then(|path| self.find(path));
        let first_type = used.first.map(|place| self.facts[place].ty);
        let second_path = match (path, first_type) {
            (UsePath::Each(_, field), Some(Type::Collection(Some(list)))) => Some(FactPath::Member(list, field)),
            (UsePath::Through(_, field) | UsePath::SiblingThrough(_, field), Some(Type::Item(Some(list)))) => {
                Some(FactPath::Member(list, field))
            }
            _ => None,
        };
        used.second = second_path.and_then(|path| self.find(path));
        let is_through_item = matches!(path, UsePath::Through(..) | UsePath::SiblingThrough(..));
        let is_misread = first_type
            .is_some_and(|ty| (wanted != Wanted::Fact && !ty.is_collection()) || (is_through_item && !ty.is_item()));
        if is_misread {
            self.faults.push(Fault::NoCollection(self.number));
        }
        if !is_in_place {
            self.faults.push(Fault::WrongPlace(self.number));
        } else if (first_path.is_some() && used.first.is_none()) || (second_path.is_some() && used.second.is_none()) {
            self.faults.push(Fault::UnknownPath(self.number));
        }
        self.mentions.extend(used.first);
        self.mentions.extend(used.second);
    }
}

// ---- types

/// Finds the type of each node of a fact whose uses are resolved.
struct TypeChecker<'d, 'a> {
    facts: &'d [Fact<'a>],
    enums: &'d Enums<'a>,
    /// Of the fact, and of the node that was seen last.
    number: usize,
    node: usize,
}

impl<'a> TypeChecker<'_, 'a> {
    fn body(&mut self, stated: Type<'a>, body: &Body<'a>) -> Result<(), Fault> {
        self.declared(stated).ok_or(Fault::IllTyped(self.number, 0))?;
        if let Some(main) = &body.main {
            self.root(main, stated)?;
        }
        if let Some((test, value)) = &body.conditional {
            self.root(test, Type::Boolean)?;
            self.root(value, stated)?;
        }
        if let Some(placeholder) = &body.placeholder {
            self.root(placeholder, stated)?;
        }
        Ok(())
    }

    fn root(&mut self, expr: &Expr<'a>, wanted: Type<'a>) -> Result<(), Fault> {
        let node = self.node + 1;
        if self.expr(expr)? != wanted {
            return Err(Fault::IllTyped(self.number, node));
        }
        Ok(())
    }

    /// The type of an expression. The fault is at the first node that has none though its operands have types.
    fn expr(&mut self, expr: &Expr<'a>) -> Result<Type<'a>, Fault> {
        self.node += 1;
        let node = self.node;
        let ty = match expr {
            Expr::Constant(constant) => constant.map(Constant::type_of),
            Expr::Dependency(used) => self.type_of(used.last()).and_then(|ty| self.declared(ty)),
            Expr::IsComplete(_) => Some(Type::Boolean),
            Expr::CollectionSize(used) => self.base(used).map(|_| Type::Int),
            Expr::CollectionSum(used) => self.type_of(used.second).filter(|ty| matches!(ty, Type::Int | Type::Dollar)),
            Expr::Count(used) => self.type_of(used.second).filter(|ty| *ty == Type::Boolean).map(|_| Type::Int),
            Expr::Filter(used, test) => self.picking(used, test)?.map(Type::Collection),
            Expr::Find(used, test) => self.picking(used, test)?.map(Type::Item),
            Expr::Switch(cases) => {
                let mut common = None;
                let mut is_typed = true;
                for (test, value) in cases {
                    is_typed &= self.expr(test)? == Type::Boolean;
                    let ty = self.expr(value)?;
                    is_typed &= *common.get_or_insert(ty) == ty;
                }
                common.filter(|_| is_typed)
            }
            Expr::Lookup(table, operand) => (self.expr(operand)? == table.from).then_some(table.to),
            Expr::Apply(operator, operands) => {
                let types = operands.iter().map(|operand| self.expr(operand)).collect::<Result<Vec<_>, _>>()?;
                operator.result_type(&types)
            }
        };
        ty.ok_or(Fault::IllTyped(self.number, node))
    }

    /// The base of the collection of which a Filter or a Find picks members, None where that has no type.
    fn picking(&mut self, used: &Use<'a>, test: &Expr<'a>) -> Result<Option<Option<&'a str>>, Fault> {
        let test = self.expr(test)?;
        Ok(self.base(used).filter(|_| test == Type::Boolean))
    }

    fn type_of(&self, place: Option<usize>) -> Option<Type<'a>> {
        place.map(|place| self.facts[place].ty)
    }

    fn base(&self, used: &Use<'a>) -> Option<Option<&'a str>> {
        match self.type_of(used.first)? {
            Type::Collection(base) => Some(base),
            _ => None,
        }
    }

    /// The type, None where it is an enum that isn't declared.
    fn declared(&self, ty: Type<'a>) -> Option<Type<'a>> {
        match ty {
            Type::Enum(name) if !self.enums.contains_key(name) => None,
            _ => Some(ty),
        }
    }
}

/// Judges types and limits, and gives the bounds of each fact.
fn check_types<'a>(dictionary: &Dictionary<'a>) -> Result<Vec<Vec<Bound<'a>>>, Fault> {
    let mut faults = Vec::new();
    let mut bounds = Vec::new();
    for (place, (fact, body)) in dictionary.facts.iter().zip(&dictionary.bodies).enumerate() {
        let number = place + 1;
        let mut checker = TypeChecker { facts: &dictionary.facts, enums: &dictionary.enums, number, node: 0 };
        faults.extend(checker.body(fact.ty, body).err());
        match bounds_of(fact) {
            Some(found) => bounds.push(found),
            None => faults.push(Fault::BadLimit(number)),
        }
    }
    first_fault(faults)?;
    Ok(bounds)
}

// ---- ranks

#[derive(Clone, Copy)]
enum Mark {
    Unseen,
    Open,
    Ranked(usize),
}

/// The rank of each fact: 0 where it mentions nothing, else 1 more than the greatest that it mentions.
fn ranks(mentions: &[Vec<usize>]) -> Result<Vec<usize>, Fault> {
    let mut marks = vec![Mark::Unseen; mentions.len()];
    let ranks: Option<Vec<usize>> = (0..mentions.len()).map(|fact| rank(fact, mentions, &mut marks)).collect();
    ranks.ok_or_else(|| {
        let lowest = (0..mentions.len()).find(|fact| reaches_itself(*fact, mentions));
        Fault::Cycle(1 + lowest.expect("a cycle was met"))
    })
}

/// None where a cycle is met.
fn rank(fact: usize, mentions: &[Vec<usize>], marks: &mut [Mark]) -> Option<usize> {
    match marks[fact] {
        Mark::Ranked(rank) => return Some(rank),
        Mark::Open => return None,
        Mark::Unseen => marks[fact] = Mark::Open,
    }
    let mut found = 0;
    for mentioned in &mentions[fact] {
        found = found.max(1 + rank(*mentioned, mentions, marks)?);
    }
    marks[fact] = Mark::Ranked(found);
    Some(found)
}

fn reaches_itself(fact: usize, mentions: &[Vec<usize>]) -> bool {
    let mut is_seen = vec![false; mentions.len()];
    let mut waiting = vec![fact];
    while let Some(next) = waiting.pop() {
        for &mentioned in &mentions[next] {
            if mentioned == fact {
                return true;
            }
            if !mem::replace(&mut is_seen[mentioned], true) {
                waiting.push(mentioned);
            }
        }
    }
    false
}

// ---- the whole

fn accept(json: &Value) -> Result<Dictionary<'_>, Fault> {
    let mut dictionary = read_dictionary(json)?;
    let mentions = resolve(&dictionary.facts, &mut dictionary.bodies)?;
    dictionary.bounds = check_types(&dictionary)?;
    dictionary.ranks = ranks(&mentions)?;
    Ok(dictionary)
}

/// How many facts and nodes the dictionary in these bytes has, where it is accepted.
fn check(bytes: &[u8]) -> Result<(usize, usize), Fault> {
    if bytes.len() > MOST_BYTES {
        return Err(Fault::TooLong);
    }
    let json = parse_json(bytes).ok_or(Fault::NotJson)?;
    let dictionary = accept(&json)?;
    Ok((dictionary.facts.len(), dictionary.nodes))
}

/// The bytes of a file: no more than one above the limit.
fn fetch(name: &str) -> io::Result<Vec<u8>> {
    let mut bytes = Vec::new();
    File::open(name)?.take(MOST_BYTES as u64 + 1).read_to_end(&mut bytes)?;
    Ok(bytes)
}

fn fail(status: u8, name: &str) -> ExitCode {
    eprintln!("interview: {status} {name}");
    ExitCode::from(status)
}

fn main() -> ExitCode {
    let words: Result<Vec<String>, OsString> = env::args_os().skip(1).map(OsString::into_string).collect();
    let Ok(words) = words else {
        return fail(9, "WordsFault");
    };
    let (line, status) = match words.as_slice() {
        [command, name] if command == "check" => {
            let Ok(bytes) = fetch(name) else {
                return fail(3, "FetchFault");
            };
            match check(&bytes) {
                Ok((facts, nodes)) => (format!("dictionary accepted {facts} facts {nodes} nodes"), 0),
                Err(fault) => (format!("dictionary refused {fault}"), 1),
            }
        }
        _ => ("usage: interview COMMAND ARGUMENTS".to_string(), 2),
    };
    match writeln!(io::stdout(), "{line}") {
        Ok(()) => ExitCode::from(status),
        Err(_) => fail(5, "WriteFault"),
    }
}
