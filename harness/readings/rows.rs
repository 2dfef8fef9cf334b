//! Rows, the rules that forbid some together, their conflicts, and the readings.

use crate::language::{Comparison, Side};
use std::collections::BTreeSet;

#[derive(Clone, Copy, PartialEq, Eq, PartialOrd, Ord)]
pub struct Row {
    pub relation: u32,
    pub columns: [u32; 4],
}

pub struct Rule {
    pub atoms: Vec<u32>,
    pub comparisons: Vec<Comparison>,
}

pub type Rows = BTreeSet<Row>;

/// So many rows may be in conflicts where readings are asked for: each subset of them is looked at.
pub const MOST_RIVALS: usize = 14;

/// The arity of a relation of the rink; 0 where it is not declared.
pub fn arity(relation: u32) -> usize {
    match relation {
        0 | 1 | 2 | 4 => 2,
        3 => 3,
        _ => 0,
    }
}

/// There may be so many conflicts.
pub const MOST_CONFLICTS: usize = 1024;

/// Every set of rows that breaks some rule, by one choice of rows or another; or too many of them.
pub fn conflicts(rows: &Rows, rules: &[Rule]) -> BTreeSet<Rows> {
    let mut found = BTreeSet::new();
    for rule in rules {
        choose(rows, rule, &mut Vec::new(), &mut found);
    }
    found
}

/// Each choice of one row for each atom, all different, that begins with the chosen ones.
fn choose(rows: &Rows, rule: &Rule, chosen: &mut Vec<Row>, found: &mut BTreeSet<Rows>) {
    if found.len() > MOST_CONFLICTS {
        return;
    }
    let Some(relation) = rule.atoms.get(chosen.len()) else {
        let value = |side| if let Side::AtomColumn(atom, column) = side { chosen[atom].columns[column] } else { unreachable!() };
        if rule.comparisons.iter().all(|comparison| comparison.holds(value)) {
            found.insert(chosen.iter().copied().collect());
        }
        return;
    };
    for row in rows.iter().filter(|row| row.relation == *relation) {
        if !chosen.contains(row) {
            chosen.push(*row);
            choose(rows, rule, chosen, found);
            chosen.pop();
        }
    }
}

/// The rows that are in some conflict.
pub fn rivals(conflicts: &BTreeSet<Rows>) -> Rows {
    conflicts.iter().flatten().copied().collect()
}

/// Every set of the rows that includes no whole conflict, and to which no other of them can be added. A row that
/// is in no conflict is in each; of the others, every subset is looked at.
pub fn readings(rows: &Rows, conflicts: &BTreeSet<Rows>) -> Vec<Rows> {
    let rivals: Vec<Row> = rivals(conflicts).into_iter().collect();
    assert!(rivals.len() <= MOST_RIVALS, "too many rows in conflicts to enumerate the readings");
    let bit = |row: &Row| 1u32 << rivals.iter().position(|rival| rival == row).unwrap();
    let whole: Vec<u32> = conflicts.iter().map(|conflict| conflict.iter().map(bit).sum()).collect();
    let clear = |set: u32| !whole.iter().any(|conflict| conflict & set == *conflict);
    let has = |set: u32, at: usize| set >> at & 1 == 1;
    (0..1u32 << rivals.len())
        .filter(|set| clear(*set) && (0..rivals.len()).all(|at| has(*set, at) || !clear(set | 1 << at)))
        .map(|set| {
            let out: Rows = (0..rivals.len()).filter(|at| !has(set, *at)).map(|at| rivals[at]).collect();
            rows.difference(&out).copied().collect()
        })
        .collect()
}
