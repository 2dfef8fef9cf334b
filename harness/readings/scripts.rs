//! Random scripts: small numbers, so that rows meet again; every command; and damaged lines.

use crate::counter::Counter;
use crate::dice::Dice;
use crate::language::{parse, Command};
use crate::plans::{answers, fits_rink, most_lines, refusal, sure, width, Line, Plan};
use crate::rows::{arity, rivals, Row, Rows, MOST_RIVALS};
use std::collections::BTreeSet;

/// A random plan has at most so many lines, since each of them is made for every reading.
const MOST_LINES: usize = 2000;

impl Dice {
    fn shuffle<T>(&mut self, items: &mut [T]) {
        for at in (1..items.len()).rev() {
            items.swap(at, self.below(at + 1));
        }
    }

    fn of<T: Clone>(&mut self, items: &[T]) -> T {
        items[self.below(items.len())].clone()
    }
}

/// A script, and what comes of it.
pub struct Script {
    pub text: Vec<u8>,
    /// What is to be printed of each line.
    pub words: Vec<String>,
    /// The numbers of the refusals in it; 0 for each line that is not refused.
    pub met: Vec<u32>,
}

/// What a script is mostly about.
#[derive(Clone, Copy, PartialEq)]
enum Kind {
    Ordinary,
    /// The places are filled.
    Crowded,
    /// There are about as many conflicts as there may be.
    Quarrels,
    /// There are just as many, and then one more.
    Brim,
    /// There are more rules than may be.
    ManyRules,
    /// Sheets have about as many lines as they may have.
    LongSheets,
    /// Most lines are damaged.
    Noise,
}

struct Writer<'a> {
    dice: &'a mut Dice,
    counter: Counter,
    kind: Kind,
    /// There are so many pads, slots and clubs.
    spread: [usize; 3],
    /// The lines that it begins with, the first one last.
    prepared: Vec<String>,
    /// Behind these come so many rules, and then so many rows.
    first: [usize; 2],
    script: Script,
}

/// A random script.
pub fn script(dice: &mut Dice) -> Script {
    let kind = match dice.below(24) {
        0 => Kind::Crowded,
        1 => Kind::Quarrels,
        2 => Kind::ManyRules,
        3 => Kind::LongSheets,
        4 => Kind::Noise,
        5 => Kind::Brim,
        _ => Kind::Ordinary,
    };
    let spread = match kind {
        Kind::Crowded => [6, 6, 6],
        _ => [1 + dice.below(3), 1 + dice.below(3), 1 + dice.below(4)],
    };
    let lines = match kind {
        Kind::Crowded => 90 + dice.below(30),
        Kind::Quarrels | Kind::Brim => 70 + dice.below(20),
        _ => 20 + dice.below(50),
    };
    let mut prepared = match kind {
        Kind::LongSheets => (0..16).map(|row| format!("enter {} {row} 7", if row == 0 { 0 } else { 4 })).collect(),
        Kind::Brim => brim(dice),
        _ => Vec::new(),
    };
    prepared.reverse();
    let first = [dice.of(&[0, 1, 1, 2, 2, 3]), 4 + dice.below(16)];
    let script = Script { text: Vec::new(), words: Vec::new(), met: Vec::new() };
    let mut writer = Writer { dice, counter: Counter::new(), kind, spread, prepared, first, script };
    for _ in 0..lines {
        let line = writer.line();
        writer.write(&line);
    }
    if writer.dice.once_in(3) {
        // The last line may go without its newline; where it is empty, it is then no line at all.
        let line = loop {
            let line = writer.line();
            if !line.is_empty() {
                break line;
            }
        };
        writer.write(&line);
        writer.script.text.pop();
    }
    writer.script
}

/// Lines that lead to 990 + 28 + 6 conflicts, just as many as there may be, and then to one more.
fn brim(dice: &mut Dice) -> Vec<String> {
    let words = |words: &[&str]| words.iter().map(ToString::to_string).collect::<Vec<String>>();
    let mut rules = words(&["rule 3 3", "rule 4 4", "rule 2 2"]);
    let mut rows = Vec::new();
    for (relation, count, end) in [(3, 45, " 7"), (4, 8, ""), (2, 4, "")] {
        rows.extend((0..count).map(|row| format!("enter {relation} {row} 40{end}")));
    }
    dice.shuffle(&mut rules);
    dice.shuffle(&mut rows);
    if dice.once_in(2) {
        rules.push("rule 1".to_string());
        let more = ["conflicts", "enter 1 1 40", "conflicts", "strike 2 0 40", "enter 1 1 40", "conflicts"];
        [rules, rows, words(&more)].concat()
    } else {
        rows.push("enter 1 1 40".to_string());
        let more = ["conflicts", "rule 1", "conflicts", "strike 1 1 40", "rule 1", "enter 1 1 40", "conflicts"];
        [rows, rules, words(&more)].concat()
    }
}

impl Writer<'_> {
    fn write(&mut self, line: &[u8]) {
        self.script.text.extend_from_slice(line);
        self.script.text.push(b'\n');
        let (words, number) = self.counter.line(line);
        self.script.words.push(words);
        self.script.met.push(number);
    }

    fn line(&mut self) -> Vec<u8> {
        if let Some(line) = self.prepared.pop() {
            return line.into_bytes();
        }
        let line = self.good_line().into_bytes();
        let damaged = match self.kind {
            Kind::Noise => !self.dice.once_in(4),
            _ => self.dice.once_in(12),
        };
        if damaged { self.damaged(line) } else { line }
    }

    fn good_line(&mut self) -> String {
        let at = self.script.met.len();
        match self.kind {
            Kind::Quarrels | Kind::Brim if !self.dice.once_in(12) => return self.quarrel(),
            Kind::ManyRules if self.dice.once_in(2) => return self.rule(),
            Kind::LongSheets if !self.dice.once_in(5) => return self.long_sheet(),
            Kind::Crowded if !self.dice.once_in(4) => return self.enter(),
            Kind::Ordinary if at < self.first[0] => return self.rule(),
            Kind::Ordinary if at < self.first[0] + self.first[1] => return self.enter(),
            _ => {}
        }
        let rivals = self.rivals();
        if rivals.len() > MOST_RIVALS && self.kind == Kind::Ordinary && !self.dice.once_in(3) {
            let row = self.dice.of(&rivals);
            return self.row_line("strike", row);
        }
        if rivals.is_empty() && self.counter.rules.len() < 8 && self.kind == Kind::Ordinary && self.dice.once_in(3) {
            return self.rule();
        }
        let plans = rivals.len() <= MOST_RIVALS;
        if plans && rivals.len() > 6 && self.dice.once_in(2) {
            return self.verdict();
        }
        match self.dice.below(20) {
            0..=4 if self.counter.rows.len() < 24 => self.enter(),
            0..=7 => self.strike(),
            8 if self.counter.rules.len() < 3 || self.dice.once_in(4) => self.rule(),
            9..=14 if plans => self.verdict(),
            15..=18 if plans => format!("sheet {}", self.plan().0),
            15..=18 => self.strike(),
            19 => "conflicts".to_string(),
            _ => self.enter(),
        }
    }

    fn rivals(&self) -> Vec<Row> {
        rivals(&self.counter.conflicts).into_iter().collect()
    }

    fn number(&mut self, value: u32) -> String {
        if self.dice.once_in(40) {
            return format!("{value:0>width$}", width = 1 + self.dice.below(10));
        }
        value.to_string()
    }

    /// A number for a pad, a slot, a club, or what else a fourth column may be.
    fn column(&mut self, at: usize) -> u32 {
        if self.dice.once_in(60) {
            let any = self.dice.next() as u32;
            return self.dice.of(&[0, 10, u32::MAX, 65_536, any]);
        }
        1 + self.dice.below(self.spread[at.min(2)]) as u32
    }

    fn relation(&mut self) -> u32 {
        if self.dice.once_in(40) {
            return self.dice.of(&[5, 9, 15, 16, 65_535]);
        }
        self.dice.of(&[0, 1, 1, 2, 2, 3, 3, 3, 4])
    }

    fn row_line(&mut self, verb: &str, row: Row) -> String {
        let mut columns = arity(row.relation).max(1);
        match self.dice.below(40) {
            0 => columns += 1,
            1 if columns > 1 => columns -= 1,
            2 => columns = 4,
            _ => {}
        }
        let mut words = vec![verb.to_string(), self.number(row.relation)];
        for at in 0..columns {
            let extra = at >= arity(row.relation) && self.dice.once_in(2);
            let column = if extra { self.column(at) } else { row.columns[at] };
            words.push(self.number(column));
        }
        words.join(" ")
    }

    fn row(&mut self) -> Row {
        let relation = self.relation();
        let mut columns = [0; 4];
        for (at, column) in columns.iter_mut().enumerate().take(arity(relation)) {
            *column = self.column(at);
        }
        Row { relation, columns }
    }

    fn held(&mut self) -> Option<Row> {
        let rows: Vec<Row> = self.counter.rows.iter().copied().collect();
        if rows.is_empty() { None } else { Some(self.dice.of(&rows)) }
    }

    fn enter(&mut self) -> String {
        let mut row = self.row();
        while self.counter.rows.contains(&row) && !self.dice.once_in(4) {
            row = self.row();
        }
        self.row_line("enter", row)
    }

    fn strike(&mut self) -> String {
        let row = match self.held() {
            Some(row) if !self.dice.once_in(5) => row,
            _ => self.row(),
        };
        self.row_line("strike", row)
    }

    fn atom_side(&mut self, atoms: &[u32]) -> String {
        let column = self.dice.below(3);
        if atoms.is_empty() || self.dice.once_in(3) {
            let column = self.column(column);
            return self.number(column);
        }
        let atom = self.dice.below(atoms.len());
        let columns = arity(atoms[atom]).max(1);
        match self.dice.below(40) {
            0 => format!("a{}.{column}", atoms.len()),
            1 => format!("a{atom}.{columns}"),
            _ => format!("a{atom}.{}", column % columns),
        }
    }

    fn rule(&mut self) -> String {
        const KNOWN: [&str; 9] = [
            "3 3 a0.0=a1.0 a0.1=a1.1 a0.2#a1.2",
            "1 2 a0.0=a1.0 a0.1=a1.1",
            "1 2 a0.0=a1.0 a0.1#a1.1",
            "1 3 a0.1=a1.1 a0.0<a1.0",
            "3 2 a0.0=a1.0",
            "3 3 3 a0.0=a1.0 a1.0=a2.0 a0.2<a1.2 a1.2<a2.2",
            "3 3 1 a0.0=a2.0 a0.1<a1.1",
            "2 2 a0.0=a1.0",
            "4 4 4 a0.0<a1.0 a1.0<a2.0 a0.1=a1.1 a1.1=a2.1",
        ];
        if self.dice.once_in(2) {
            return format!("rule {}", self.dice.of(&KNOWN));
        }
        let count = self.dice.of(&[0, 1, 1, 1, 1, 2, 2, 2, 2, 2, 2, 2, 2, 3, 3, 3, 3, 3, 4]);
        let atoms: Vec<u32> = (0..count).map(|_| self.relation()).collect();
        let mut words: Vec<String> = atoms.iter().map(u32::to_string).collect();
        for atom in 1..atoms.len() {
            for column in 0..2 {
                if !self.dice.once_in(3) {
                    words.push(format!("a{}.{column}=a{atom}.{column}", atom - 1));
                }
            }
        }
        let more = if self.dice.once_in(20) { 5 } else { usize::from(count == 1) + self.dice.below(3) };
        for _ in 0..more {
            let (left, right) = (self.atom_side(&atoms), self.atom_side(&atoms));
            words.push(format!("{left}{}{right}", self.dice.of(&['=', '#', '#', '<', '>'])));
        }
        format!("rule {}", words.join(" "))
    }

    /// A line that makes many conflicts: rows for one pad and slot, and rules that set them against each other.
    fn quarrel(&mut self) -> String {
        const RULES: [&str; 4] = ["3 3", "3 3 a0.0=a1.0 a0.2#a1.2", "3 3 3 a0.0=a1.0", "3 3 3 a0.2<a1.2 a1.2<a2.2"];
        let club = 100 + self.script.met.len();
        match self.dice.below(30) {
            0..=2 => format!("rule {}", self.dice.of(&RULES)),
            3 => self.strike(),
            4 => "conflicts".to_string(),
            _ => format!("enter 3 1 40 {club}"),
        }
    }

    /// A row of one relation, or the sheet of all pairs of such rows.
    fn long_sheet(&mut self) -> String {
        const SHEETS: [&str; 4] = ["4:_,_ 4:_,_ *", "4:_,_ 4:_,_ * c0#c2", "4:_,_ 4:_,_ * 0:_,_ 0:_,_ * +", "4:_,7 4:_,7 *"];
        if self.rivals().len() <= MOST_RIVALS && self.dice.once_in(2) {
            return format!("sheet {}", self.dice.of(&SHEETS));
        }
        let verb = if self.counter.rows.len() < 16 + self.dice.below(4) { "enter" } else { "strike" };
        format!("{verb} 4 {} 7", self.dice.below(24))
    }

    /// A leaf, if it can be with so many open columns, and how many it has.
    fn leaf(&mut self, wanted: Option<usize>) -> (String, usize) {
        let rivals = self.rivals();
        let relation = match wanted {
            Some(3) => 3,
            _ if rivals.is_empty() || self.dice.once_in(3) => self.relation(),
            _ => self.dice.of(&rivals).relation,
        };
        let columns = if self.dice.once_in(80) { 1 + self.dice.below(4) } else { arity(relation).max(1) };
        let mut open = wanted.unwrap_or(1 + self.dice.below(columns)).min(columns);
        if self.dice.once_in(120) {
            open = 0;
        }
        let is_like = |row: &&Row| row.relation == relation;
        let mut like: Vec<Row> = rivals.iter().filter(is_like).copied().collect();
        if like.is_empty() || self.dice.once_in(3) {
            like = self.counter.rows.iter().filter(is_like).copied().collect();
        }
        let like = if like.is_empty() || self.dice.once_in(6) { None } else { Some(self.dice.of(&like)) };
        let in_front = self.dice.once_in(2);
        let mut words = Vec::new();
        let mut left = open;
        for at in 0..columns {
            if left > 0 && (in_front || self.dice.below(columns - at) < left) {
                left -= 1;
                words.push("_".to_string());
            } else {
                let number = like.map_or_else(|| self.column(at), |row| row.columns[at]);
                words.push(self.number(number));
            }
        }
        (format!("{}:{}", self.number(relation), words.join(",")), open)
    }

    /// The union of leaves that have one column open and the rest as in the rows of a conflict, one leaf for each
    /// row; or nothing where there is no conflict.
    fn rivalry(&mut self) -> Vec<String> {
        let conflicts: Vec<&Rows> = self.counter.conflicts.iter().collect();
        if conflicts.is_empty() {
            return Vec::new();
        }
        let rows: Vec<Row> = self.dice.of(&conflicts).iter().copied().collect();
        let shared = rows[0].columns[self.dice.below(2)];
        let mut words = Vec::new();
        for (count, row) in rows.iter().enumerate() {
            let columns = &row.columns[..arity(row.relation)];
            let open = columns.iter().position(|column| *column == shared).unwrap_or(0);
            let column = |at: usize| if at == open { "_".to_string() } else { columns[at].to_string() };
            let columns: Vec<String> = (0..columns.len()).map(column).collect();
            words.push(format!("{}:{}", row.relation, columns.join(",")));
            if count > 0 {
                words.push(self.dice.of(&["+", "+", "+", "-"]).to_string());
            }
        }
        words
    }

    fn line_side(&mut self, width: usize) -> String {
        match self.dice.below(40) {
            0 => format!("c{}", self.dice.below(10)),
            1..=12 => {
                let at = self.dice.below(3);
                let column = self.column(at);
                self.number(column)
            }
            _ => format!("c{}", self.dice.below(width.max(1))),
        }
    }

    fn choice(&mut self, width: usize) -> String {
        let (left, right) = (self.line_side(width), self.line_side(width));
        format!("{left}{}{right}", self.dice.of(&['=', '#', '<', '>']))
    }

    /// A plan with about so many leaves, of a width if one is wanted, and its width.
    fn tree(&mut self, leaves: usize, wanted: Option<usize>) -> (Vec<String>, usize) {
        let (mut words, mut width);
        if leaves > 1 && wanted.is_none_or(|width| width == 1) && !self.dice.once_in(3) {
            (words, width) = (self.rivalry(), 1);
            if words.is_empty() {
                return self.tree(1, wanted);
            }
        } else if leaves <= 1 && wanted.is_none_or(|width| width <= 3) {
            let (leaf, open) = self.leaf(wanted);
            (words, width) = (vec![leaf], open);
        } else {
            let left = if leaves <= 1 { 1 } else { 1 + self.dice.below(leaves - 1) };
            let right = leaves.saturating_sub(left).max(1);
            let product = match wanted {
                None => self.dice.once_in(2),
                Some(0 | 1) => false,
                Some(width) => width > 3 || self.dice.once_in(3),
            };
            if product {
                let part = wanted.map(|width| 1 + self.dice.below(width - 1));
                (words, width) = self.tree(left, part);
                let (more, further) = self.tree(right, wanted.map(|wanted| wanted.saturating_sub(width).max(1)));
                words.extend(more);
                words.push("*".to_string());
                width += further;
            } else {
                (words, width) = self.tree(left, wanted);
                let alike = !self.dice.once_in(25);
                words.extend(self.tree(right, alike.then_some(width)).0);
                words.push(self.dice.of(&["+", "-", "-"]).to_string());
            }
        }
        while self.dice.once_in(6) {
            words.push(self.choice(width));
        }
        (words, width)
    }

    /// A plan in words, and the plan itself where no question about it is answered No.
    fn plan(&mut self) -> (String, Option<Plan>) {
        loop {
            let leaves = if self.dice.once_in(60) { 7 } else { self.dice.of(&[1, 2, 2, 2, 2, 3, 3, 3, 4, 4, 5, 6]) };
            let wanted = match self.dice.of(&[0, 0, 1, 1, 2, 2, 2, 2, 3, 3, 4, 5, 8, 9]) {
                0 => None,
                width => Some(width),
            };
            let (mut words, width) = self.tree(leaves, wanted);
            if self.dice.once_in(80) {
                let more = self.dice.below(24);
                words.extend((0..more).map(|_| self.choice(width)));
            }
            let words = words.join(" ");
            match parse(format!("sheet {words}").as_bytes()) {
                Ok(Command::Sheet(plan)) if refusal(&plan).is_ok() => {
                    if most_lines(&plan, &self.counter.rows) <= MOST_LINES {
                        let fits = fits_rink(&plan);
                        return (words, fits.then_some(plan));
                    }
                }
                _ => return (words, None),
            }
        }
    }

    /// A line over which the readings differ or agree for different reasons, if there is one, or another answer.
    fn answer(&mut self, plan: &Plan) -> Option<Line> {
        let together = answers(plan, &self.counter.rows);
        let quiet: Rows = &self.counter.rows - &rivals(&self.counter.conflicts);
        let readings = self.counter.readings();
        let always = sure(plan, readings);
        let sometimes: BTreeSet<Line> = readings.iter().flat_map(|rows| answers(plan, rows)).collect();
        let kinds = [&always - &answers(plan, &quiet), &sometimes - &always, &together - &sometimes, together];
        let first = self.dice.below(kinds.len());
        let lines = kinds.iter().cycle().skip(first).take(kinds.len()).find(|lines| !lines.is_empty())?;
        let lines: Vec<&Line> = lines.iter().collect();
        Some(self.dice.of(&lines).clone())
    }

    fn verdict(&mut self) -> String {
        let (words, plan) = self.plan();
        let known = match &plan {
            Some(plan) if !self.dice.once_in(5) => self.answer(plan),
            _ => None,
        };
        let wide = plan.as_ref().map_or(2, |plan| width(plan));
        let mut line = known.unwrap_or_else(|| (0..wide).map(|at| self.column(at % 3)).collect());
        match self.dice.below(30) {
            0 => line.push(0),
            1 => line.push(1),
            2 => line.extend([0, 1]),
            3 => line.extend([0; 8]),
            4 if line.len() > 1 => {
                line.pop();
            }
            5 => line.resize(8, 0),
            _ => {}
        }
        let numbers: Vec<String> = line.iter().map(|column| self.number(*column)).collect();
        format!("verdict {words} / {}", numbers.join(" "))
    }

    /// The line with one kind of damage. It stays one line.
    fn damaged(&mut self, mut line: Vec<u8>) -> Vec<u8> {
        const FIRST: [&str; 10] = ["", "paint", "Enter", "rules", "enter\t0", "verdicts", "conflict", "3", "sheet:", "\u{e9}nter"];
        const WORDS: [&str; 58] = [
            "", "00000000001", "4294967296", "4294967295", "0000000000", "9999999999", "65536", "65535", "00000000007", "5",
            "-2", "+2", "0x1", "1.0", "1_", "_", "x", "\u{e9}", "enter", "**", "//", "/", "*", "+", "-",
            "3:", ":_", "3:_,", "3:_,_,_,_", "3:_,_,_,_,_", "3::_", "3:,_", "3:_:_", "x:_", "3:__", "65536:_,_",
            "3:4294967296",
            "7=7", "1==1", "1=1=1", "1!1", "=", "1=", "=1", "1<c0", "c0>1", "c0<>1", "c9=1", "c10=1", "c=1",
            "a0.0<c0", "c0#a0.0", "a0.0=a1", "a0=1", "a00.0=1", "a0.10=1", "a9.9=1", "b0=1",
        ];
        const BYTES: &[u8] = b" _:,*+-/=#<>acr.0123456789\t\r\0\xff";
        let byte = match self.dice.next() as u8 {
            any if self.dice.once_in(4) && any != b'\n' => any,
            _ => self.dice.of(BYTES),
        };
        let mut parts: Vec<Vec<u8>> = line.split(|byte| *byte == b' ').map(<[u8]>::to_vec).collect();
        let at = self.dice.below(parts.len());
        let place = self.dice.below(line.len().max(1));
        match self.dice.below(11) {
            0 => {
                let length = 198 + self.dice.below(6);
                let filling: &[u8] = if self.dice.once_in(2) { b" 0=0" } else { b"2" };
                while line.len() < length {
                    line.extend(filling.iter().take(length - line.len()));
                }
                return line;
            }
            1 => parts[0] = self.dice.of(&FIRST).as_bytes().to_vec(),
            2 | 3 => parts[at] = self.dice.of(&WORDS).as_bytes().to_vec(),
            4 => {
                let other = self.dice.below(parts.len());
                parts.swap(at, other);
            }
            5 => {
                parts.remove(at);
            }
            6 => parts.insert(at, parts[at].clone()),
            7 => parts.insert(at + 1, self.dice.of(&WORDS).as_bytes().to_vec()),
            8 => {
                line.insert(place, byte);
                return line;
            }
            9 if !line.is_empty() => {
                line[place] = byte;
                return line;
            }
            _ => {
                line.truncate(place);
                return line;
            }
        }
        parts.join(&b' ')
    }
}
