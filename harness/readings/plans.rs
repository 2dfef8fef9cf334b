//! Plans in postfix, the questions that they are put, and their answers.

use crate::language::{Comparison, Side};
use crate::rows::{arity, Row, Rows};
use std::collections::BTreeSet;

#[derive(Clone)]
pub enum Node {
    /// A column is a constant, or nothing where it is open.
    Leaf { relation: u32, columns: Vec<Option<u32>> },
    Choice(Comparison),
    Product,
    Union,
    Difference,
}

pub type Plan = Vec<Node>;
pub type Line = Vec<u32>;

/// Does its work on a plan from left to right: each node takes the values of its nodes and leaves its own.
fn postfix<T>(plan: &[Node], mut value: impl FnMut(&Node, Vec<T>) -> T) -> T {
    let mut values: Vec<T> = Vec::new();
    for node in plan {
        let takes = match node {
            Node::Leaf { .. } => 0,
            Node::Choice(_) => 1,
            _ => 2,
        };
        let own = values.split_off(values.len() - takes);
        values.push(value(node, own));
    }
    values.pop().unwrap()
}

fn width_of(node: &Node, widths: &[usize]) -> usize {
    match node {
        Node::Leaf { columns, .. } => columns.iter().filter(|column| column.is_none()).count(),
        Node::Product => widths[0] + widths[1],
        _ => widths[0],
    }
}

/// How many columns its lines have.
pub fn width(plan: &[Node]) -> usize {
    postfix(plan, |node, widths| width_of(node, &widths))
}

fn below(comparison: &Comparison, width: usize) -> bool {
    comparison.sides().iter().all(|side| if let Side::LineColumn(column) = side { *column < width } else { true })
}

/// The number of the first question about a plan that is answered No.
pub fn refusal(plan: &[Node]) -> Result<(), u32> {
    if plan.is_empty() || plan.len() > 16 {
        return Err(31);
    }
    let leaves: Vec<&Node> = plan.iter().filter(|node| matches!(node, Node::Leaf { .. })).collect();
    if leaves.len() > 6 || leaves.iter().any(|leaf| width_of(leaf, &[]) == 0) {
        return Err(33);
    }
    let mut fits = true;
    postfix(plan, |node, widths: Vec<usize>| {
        fits &= match node {
            Node::Choice(comparison) => below(comparison, widths[0]),
            Node::Union | Node::Difference => widths[0] == widths[1],
            _ => true,
        };
        let width = width_of(node, &widths);
        fits &= width <= 8;
        width
    });
    if fits { Ok(()) } else { Err(34) }
}

/// Whether each leaf has the arity of its relation.
pub fn fits_rink(plan: &[Node]) -> bool {
    plan.iter().all(|node| match node {
        Node::Leaf { relation, columns } => arity(*relation) == columns.len(),
        _ => true,
    })
}

/// What the plan answers over rows.
pub fn answers(plan: &[Node], rows: &Rows) -> BTreeSet<Line> {
    postfix(plan, |node, sides: Vec<BTreeSet<Line>>| match node {
        Node::Leaf { relation, columns } => {
            let fits = |row: &&Row| {
                let mut pairs = columns.iter().zip(row.columns);
                row.relation == *relation && pairs.all(|(column, number)| column.is_none_or(|constant| constant == number))
            };
            let open = |row: &Row| -> Line {
                let pairs = columns.iter().zip(row.columns);
                pairs.filter(|(column, _)| column.is_none()).map(|(_, number)| number).collect()
            };
            rows.iter().filter(fits).map(open).collect()
        }
        Node::Choice(comparison) => {
            let value = |line: &Line, side| if let Side::LineColumn(column) = side { line[column] } else { unreachable!() };
            sides[0].iter().filter(|line| comparison.holds(|side| value(line, side))).cloned().collect()
        }
        Node::Product => {
            let with = |left: &Line| -> Vec<Line> { sides[1].iter().map(|right| [&left[..], &right[..]].concat()).collect() };
            sides[0].iter().flat_map(with).collect()
        }
        Node::Union => &sides[0] | &sides[1],
        Node::Difference => &sides[0] - &sides[1],
    })
}

/// The answers over the rows of every reading.
pub fn sure(plan: &[Node], readings: &[Rows]) -> BTreeSet<Line> {
    let mut each = readings.iter().map(|rows| answers(plan, rows));
    let first = each.next().expect("there is always a reading");
    each.fold(first, |sure, answers| &sure & &answers)
}

/// At most so many lines the plan can have over rows: what a random plan may cost.
pub fn most_lines(plan: &[Node], rows: &Rows) -> usize {
    postfix(plan, |node, sides: Vec<usize>| match node {
        Node::Leaf { .. } => answers(std::slice::from_ref(node), rows).len(),
        Node::Product => sides[0].saturating_mul(sides[1]),
        Node::Union => sides[0].saturating_add(sides[1]),
        _ => sides[0],
    })
}
