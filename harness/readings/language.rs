//! The language of a line: what its words are, and what they command.

use crate::plans::{Node, Plan};
use crate::rows::{Row, Rule};

/// What a side of a comparison names.
#[derive(Clone, Copy, PartialEq)]
pub enum Side {
    AtomColumn(usize, usize),
    LineColumn(usize),
    Constant(u32),
}

#[derive(Clone, Copy)]
pub struct Comparison {
    pub left: Side,
    pub sign: u8,
    pub right: Side,
}

impl Comparison {
    pub fn sides(&self) -> [Side; 2] {
        [self.left, self.right]
    }

    /// Whether it holds, where `value` tells the number in a column.
    pub fn holds(&self, value: impl Fn(Side) -> u32) -> bool {
        let side = |side| if let Side::Constant(number) = side { number } else { value(side) };
        let (left, right) = (side(self.left), side(self.right));
        match self.sign {
            b'=' => left == right,
            b'#' => left != right,
            b'<' => left < right,
            _ => left > right,
        }
    }
}

#[derive(Clone)]
enum Word {
    Number(u32),
    Leaf(u32, Vec<Option<u32>>),
    Comparison(Comparison),
    Sign(u8),
    Slash,
}

pub enum Command {
    Enter(Row),
    Strike(Row),
    Rule(Rule),
    Conflicts,
    Verdict(Plan, Vec<u32>),
    Sheet(Plan),
}

/// 1 to 10 digits with a value below 2^32.
fn number(text: &[u8]) -> Option<u32> {
    if text.is_empty() || text.len() > 10 || !text.iter().all(u8::is_ascii_digit) {
        return None;
    }
    let value = text.iter().fold(0u64, |value, digit| 10 * value + u64::from(digit - b'0'));
    u32::try_from(value).ok()
}

/// What stands before and behind the one byte that passes the test.
fn halves(text: &[u8], test: impl Fn(u8) -> bool) -> Option<(&[u8], u8, &[u8])> {
    let at = text.iter().position(|byte| test(*byte))?;
    let behind = &text[at + 1..];
    if behind.iter().any(|byte| test(*byte)) {
        return None;
    }
    Some((&text[..at], text[at], behind))
}

fn leaf(text: &[u8]) -> Option<Word> {
    let (relation, _, columns) = halves(text, |byte| byte == b':')?;
    let columns: Vec<&[u8]> = columns.split(|byte| *byte == b',').collect();
    if columns.len() > 4 {
        return None;
    }
    let column = |text: &&[u8]| if *text == b"_" { Some(None) } else { number(text).map(Some) };
    Some(Word::Leaf(number(relation)?, columns.iter().map(column).collect::<Option<_>>()?))
}

fn side(text: &[u8]) -> Option<Side> {
    let digit = |byte: u8| byte.is_ascii_digit().then(|| usize::from(byte - b'0'));
    match *text {
        [b'a', atom, b'.', column] => Some(Side::AtomColumn(digit(atom)?, digit(column)?)),
        [b'c', column] => Some(Side::LineColumn(digit(column)?)),
        _ => number(text).map(Side::Constant),
    }
}

fn comparison(text: &[u8]) -> Option<Comparison> {
    let (left, sign, right) = halves(text, |byte| b"=#<>".contains(&byte))?;
    let (left, right) = (side(left)?, side(right)?);
    match (left, right) {
        (Side::AtomColumn(..), Side::LineColumn(_)) | (Side::LineColumn(_), Side::AtomColumn(..)) => None,
        _ => Some(Comparison { left, sign, right }),
    }
}

/// The form of a word, if it has one.
fn form(text: &[u8]) -> Option<Word> {
    match text {
        b"*" | b"+" | b"-" => Some(Word::Sign(text[0])),
        b"/" => Some(Word::Slash),
        _ => number(text).map(Word::Number).or_else(|| leaf(text)).or_else(|| comparison(text).map(Word::Comparison)),
    }
}

/// A number that can be a relation's.
fn relation(number: u32) -> Option<u32> {
    (number <= 65_535).then_some(number)
}

/// So many words, all of them numbers.
fn numbers(words: &[Word], most: usize) -> Option<Vec<u32>> {
    if words.is_empty() || words.len() > most {
        return None;
    }
    words.iter().map(|word| if let Word::Number(number) = word { Some(*number) } else { None }).collect()
}

fn row(words: &[Word]) -> Option<Row> {
    let (first, columns) = words.split_first()?;
    let Word::Number(number) = first else { return None };
    let mut row = Row { relation: relation(*number)?, columns: [0; 4] };
    for (at, column) in numbers(columns, 4)?.iter().enumerate() {
        row.columns[at] = *column;
    }
    Some(row)
}

fn rule(words: &[Word]) -> Option<Rule> {
    let mut rule = Rule { atoms: Vec::new(), comparisons: Vec::new() };
    for word in words {
        match word {
            Word::Number(number) if rule.comparisons.is_empty() => rule.atoms.push(relation(*number)?),
            Word::Comparison(c) if !c.sides().iter().any(|side| matches!(side, Side::LineColumn(_))) => rule.comparisons.push(*c),
            _ => return None,
        }
    }
    Some(rule)
}

/// A plan in postfix: each sign and each comparison finds its nodes, and one node is left over.
fn plan(words: &[Word]) -> Option<Plan> {
    let mut plan = Vec::new();
    let mut left_over = 0usize;
    for word in words {
        let (node, takes) = match word {
            Word::Leaf(number, columns) => (Node::Leaf { relation: relation(*number)?, columns: columns.clone() }, 0),
            Word::Comparison(c) if !c.sides().iter().any(|side| matches!(side, Side::AtomColumn(..))) => (Node::Choice(*c), 1),
            Word::Sign(b'*') => (Node::Product, 2),
            Word::Sign(b'+') => (Node::Union, 2),
            Word::Sign(_) => (Node::Difference, 2),
            _ => return None,
        };
        plan.push(node);
        left_over = left_over.checked_sub(takes)? + 1;
    }
    (left_over == 1).then_some(plan)
}

fn command(verb: &[u8], words: &[Word]) -> Option<Command> {
    match verb {
        b"enter" => row(words).map(Command::Enter),
        b"strike" => row(words).map(Command::Strike),
        b"rule" => rule(words).map(Command::Rule),
        b"conflicts" => words.is_empty().then_some(Command::Conflicts),
        b"sheet" => plan(words).map(Command::Sheet),
        _ => {
            let slash = words.iter().position(|word| matches!(word, Word::Slash))?;
            Some(Command::Verdict(plan(&words[..slash])?, numbers(&words[slash + 1..], 8)?))
        }
    }
}

const VERBS: [&[u8]; 6] = [b"enter", b"strike", b"rule", b"conflicts", b"verdict", b"sheet"];

/// What a line commands, or the number of the first question that is answered No.
pub fn parse(line: &[u8]) -> Result<Command, u32> {
    if line.len() > 200 {
        return Err(1);
    }
    let words: Vec<&[u8]> = line.split(|byte| *byte == b' ').collect();
    if !VERBS.contains(&words[0]) {
        return Err(2);
    }
    let forms: Vec<Word> = words[1..].iter().map(|word| form(word)).collect::<Option<_>>().ok_or(3u32)?;
    command(words[0], &forms).ok_or(4)
}
