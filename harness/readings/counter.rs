//! The second counter: what a line does, and the words that are printed of it.

use crate::language::{parse, Command, Side};
use crate::plans::{fits_rink, refusal, sure, width, Line, Plan};
use crate::rows::{arity, conflicts, readings, Row, Rows, Rule, MOST_CONFLICTS};
use std::collections::BTreeSet;

const PLACES: usize = 64;
const MOST_RULES: usize = 16;
const MOST_LINES: usize = 256;

pub struct Counter {
    pub rows: Rows,
    pub rules: Vec<Rule>,
    pub conflicts: BTreeSet<Rows>,
    /// The readings, once they were asked for since the rows or the rules changed.
    readings: Option<Vec<Rows>>,
    lines: usize,
}

impl Counter {
    pub fn new() -> Counter {
        Counter { rows: Rows::new(), rules: Vec::new(), conflicts: BTreeSet::new(), readings: None, lines: 0 }
    }

    /// What is printed of a line, and the number of its refusal, or 0.
    pub fn line(&mut self, line: &[u8]) -> (String, u32) {
        self.lines += 1;
        match parse(line).and_then(|command| self.does(command)) {
            Ok(words) => (words, 0),
            Err(number) => (format!("refused {number} {} line {}\n", layer(number), self.lines), number),
        }
    }

    fn does(&mut self, command: Command) -> Result<String, u32> {
        match command {
            Command::Enter(row) => self.enter(row).map(|()| "taken\n".to_string()),
            Command::Strike(row) => self.strike(row).map(|()| "taken\n".to_string()),
            Command::Rule(rule) => self.rule(rule).map(|()| "taken\n".to_string()),
            Command::Conflicts => Ok(format!("conflicts {}\n", self.conflicts.len())),
            Command::Verdict(plan, line) => {
                let sure = self.verdict(&plan, line)?;
                Ok(if sure { "sure\n" } else { "unsure\n" }.to_string())
            }
            Command::Sheet(plan) => self.sheet(&plan),
        }
    }

    fn enter(&mut self, row: Row) -> Result<(), u32> {
        let columns = arity(row.relation);
        yes(columns > 0, 11)?;
        yes(row.columns[columns..].iter().all(|column| *column == 0), 12)?;
        yes(!self.rows.contains(&row), 13)?;
        yes(self.rows.len() < PLACES, 14)?;
        self.rows.insert(row);
        let conflicts = conflicts(&self.rows, &self.rules);
        if conflicts.len() > MOST_CONFLICTS {
            self.rows.remove(&row);
            return Err(15);
        }
        self.now(conflicts);
        Ok(())
    }

    fn strike(&mut self, row: Row) -> Result<(), u32> {
        yes(self.rows.remove(&row), 16)?;
        self.now(conflicts(&self.rows, &self.rules));
        Ok(())
    }

    fn rule(&mut self, rule: Rule) -> Result<(), u32> {
        yes(self.rules.len() < MOST_RULES, 21)?;
        yes((1..=3).contains(&rule.atoms.len()) && rule.comparisons.len() <= 6, 22)?;
        yes(rule.atoms.iter().all(|atom| arity(*atom) > 0), 23)?;
        let names = |side: Side| match side {
            Side::AtomColumn(atom, column) => atom < rule.atoms.len() && column < arity(rule.atoms[atom]),
            _ => true,
        };
        yes(rule.comparisons.iter().flat_map(|comparison| comparison.sides()).all(names), 24)?;
        self.rules.push(rule);
        let conflicts = conflicts(&self.rows, &self.rules);
        if conflicts.len() > MOST_CONFLICTS {
            self.rules.pop();
            return Err(25);
        }
        self.now(conflicts);
        Ok(())
    }

    fn now(&mut self, conflicts: BTreeSet<Rows>) {
        self.conflicts = conflicts;
        self.readings = None;
    }

    /// The readings of the rows held.
    pub fn readings(&mut self) -> &[Rows] {
        self.readings.get_or_insert_with(|| readings(&self.rows, &self.conflicts))
    }

    fn verdict(&mut self, plan: &Plan, mut line: Line) -> Result<bool, u32> {
        refusal(plan)?;
        yes(fits_rink(plan), 41)?;
        let width = width(plan);
        yes(line.iter().skip(width).all(|column| *column == 0), 42)?;
        line.resize(width, 0);
        Ok(sure(plan, self.readings()).contains(&line))
    }

    fn sheet(&mut self, plan: &Plan) -> Result<String, u32> {
        refusal(plan)?;
        yes(fits_rink(plan), 41)?;
        let lines = sure(plan, self.readings());
        yes(lines.len() <= MOST_LINES, 45)?;
        let shown = |line: &Line| line.iter().map(u32::to_string).collect::<Vec<_>>().join(" ") + "\n";
        Ok(lines.iter().map(shown).collect::<String>() + &format!("end {}\n", lines.len()))
    }
}

/// Where a question is answered No, its number is the refusal.
fn yes(answer: bool, number: u32) -> Result<(), u32> {
    if answer { Ok(()) } else { Err(number) }
}

fn layer(number: u32) -> &'static str {
    match number {
        1..=4 => "script",
        11..=14 | 16 => "source",
        31..=34 => "plan",
        _ => "book",
    }
}
