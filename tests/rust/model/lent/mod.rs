//! Lent code (order 10): its form, read into functions. Then come depth and scope, and then holds, each over the whole
//! code.

mod depths;
mod holds;
pub mod meaning;

use super::code::{Atom, Coded, Line, Operation, Tree};
use super::script::{Arithmetic, Loop, FUNCTIONS_MAX};

pub const LINES_MAX: usize = 4096;
pub const TREES_MAX: usize = 64;

/// The first line at fault, by what it breaks.
#[derive(Clone, Copy, PartialEq, Eq, Debug)]
pub enum Fault {
    Form(usize),
    Depth(usize),
    Holds(usize),
}

impl Fault {
    pub fn line(self) -> usize {
        match self {
            Fault::Form(line) | Fault::Depth(line) | Fault::Holds(line) => line,
        }
    }

    pub fn class(self) -> &'static str {
        match self {
            Fault::Form(_) => "form",
            Fault::Depth(_) => "depth or scope",
            Fault::Holds(_) => "holds",
        }
    }
}

/// The functions of lent code for a main of some depth, and its lines.
pub fn judge(kinds: &[u8], operands: &[i64], depth: u64) -> Result<(Vec<Coded>, usize), Fault> {
    let (mut functions, lines) = read(kinds, operands).map_err(Fault::Form)?;
    depths::find(&mut functions, depth).map_err(Fault::Depth)?;
    holds::follow(&functions).map_err(Fault::Holds)?;
    Ok((functions, lines))
}

/// The line after the last one that is not zero in both arrays.
fn end_of(kinds: &[u8], operands: &[i64]) -> usize {
    let kinds = kinds.iter().rposition(|kind| *kind != 0).map_or(0, |last| last + 1);
    let operands = operands.iter().rposition(|operand| *operand != 0).map_or(0, |last| last + 1);
    kinds.max(operands)
}

fn read(kinds: &[u8], operands: &[i64]) -> Result<(Vec<Coded>, usize), usize> {
    let end = end_of(kinds, operands);
    let most = LINES_MAX.min(kinds.len()).min(operands.len());
    let rows: Vec<(u8, i64)> = kinds.iter().copied().zip(operands.iter().copied()).take(end.min(most)).collect();
    let counts = rows.iter().filter(|(kind, _)| *kind == 0).map(|(_, operand)| parts(0, *operand)).collect();
    let mut reader = Reader { rows, goes_on: end > most, counts, at: 0 };
    Ok((reader.functions()?, end))
}

/// The parts of a line's operand, if each is in range: its lowest two bytes and the rest.
fn parts(kind: u8, operand: i64) -> Option<[usize; 3]> {
    let limits = match kind {
        0 => [8, 4, 0],
        1 => [255, 4, 0],
        8 => [255, 31, 0],
        9 => [255, 16, 3],
        13 | 19 | 21 => [255, 255, 0],
        16 => [0, 0, 0],
        20 => [255, 255, 255],
        _ => [255, 0, 0],
    };
    let parts = [operand & 255, operand >> 8 & 255, operand >> 16];
    let in_range = parts.iter().zip(limits).all(|(part, limit)| (0..=limit).contains(part));
    in_range.then(|| parts.map(|part| part as usize))
}

/// The kinds of the lines of a tree.
const LINES: [u8; 17] = [4, 5, 6, 8, 9, 10, 11, 12, 13, 14, 15, 16, 17, 18, 19, 20, 21];

/// The lines that are looked at, whether the code goes on past them, and the parts of each line of kind 0, where they
/// are in range. What is refused is a line.
struct Reader {
    rows: Vec<(u8, i64)>,
    goes_on: bool,
    counts: Vec<Option<[usize; 3]>>,
    at: usize,
}

impl Reader {
    fn functions(&mut self) -> Result<Vec<Coded>, usize> {
        let mut functions = Vec::new();
        while functions.is_empty() || self.at < self.rows.len() {
            if functions.len() == FUNCTIONS_MAX {
                return Err(self.at);
            }
            functions.push(self.function()?);
        }
        if self.goes_on {
            return Err(self.at);
        }
        Ok(functions)
    }

    fn function(&mut self) -> Result<Coded, usize> {
        let (_, [count, depth, _]) = self.line(&[0])?;
        self.atoms(self.at - 1, Some(0))?;
        let mut parameters = Vec::new();
        let mut depths = vec![0; 256];
        for _ in 0..count {
            let (_, [name, depth, _]) = self.line(&[1])?;
            self.atoms(self.at - 1, Some(0))?;
            parameters.push((name, depth));
            depths[name] = depth;
        }
        let tree = self.tree(1)?;
        Ok(Coded { depth, parameters, depths, tree })
    }

    /// The kind of the line at hand, which must be allowed, and the parts of its operand.
    fn line(&mut self, allowed: &[u8]) -> Result<(u8, [usize; 3]), usize> {
        let at = self.at;
        let (kind, operand) = *self.rows.get(at).ok_or(at)?;
        if !allowed.contains(&kind) {
            return Err(at);
        }
        self.at += 1;
        Ok((kind, parts(kind, operand).ok_or(at)?))
    }

    /// The atoms that serve a line: as many as it wants, where that is known.
    fn atoms(&mut self, line: usize, wanted: Option<usize>) -> Result<Vec<Atom>, usize> {
        let mut atoms = Vec::new();
        while let Some((kind @ (2 | 3), operand)) = self.rows.get(self.at) {
            atoms.push(match kind {
                2 => Atom::Number(*operand),
                _ => Atom::Name(parts(3, *operand).ok_or(line)?[0]),
            });
            self.at += 1;
        }
        let wanted = wanted.unwrap_or(atoms.len());
        if atoms.len() < wanted && self.goes_on && self.at == self.rows.len() {
            return Err(self.at);
        }
        if atoms.len() != wanted {
            return Err(line);
        }
        Ok(atoms)
    }

    fn tree(&mut self, level: usize) -> Result<Tree, usize> {
        if level > TREES_MAX {
            return Err(self.at);
        }
        let mut lines = Vec::new();
        loop {
            let at = self.at;
            let (kind, parts) = self.line(&LINES)?;
            let wanted = match kind {
                8 => self.counts.get(parts[1]).ok_or(at)?.map(|parts| parts[0]),
                9 => Some(parts[1]),
                14 | 15 => Some(0),
                4..=6 | 10 | 18 | 20 => Some(2),
                _ => Some(1),
            };
            let atoms = self.atoms(at, wanted)?;
            if kind == 16 {
                return Ok(Tree { lines, end: atoms[0] });
            }
            lines.push(self.whole(kind, parts, atoms, level)?);
        }
    }

    /// A line with its trees.
    fn whole(&mut self, kind: u8, parts: [usize; 3], atoms: Vec<Atom>, level: usize) -> Result<Line, usize> {
        let [name, second, third] = parts;
        let operation = match kind {
            4 => Operation::Arithmetic(Arithmetic::Sum),
            5 => Operation::Arithmetic(Arithmetic::Difference),
            6 => Operation::Arithmetic(Arithmetic::Less),
            8 => Operation::Call(second),
            9 => Operation::Literal(third),
            10 => Operation::Index,
            11 => Operation::Length,
            17 => Operation::Iota,
            18 => Operation::Replicate,
            12 => return Ok(Line::If(name, atoms[0], self.tree(level + 1)?, self.tree(level + 1)?)),
            13 => return self.passes(name, Loop::Map, vec![second], atoms, level),
            19 => return self.passes(name, Loop::Filter, vec![second], atoms, level),
            20 => return self.passes(name, Loop::Reduce, vec![second, third], atoms, level),
            21 => return self.passes(name, Loop::Rewriting, vec![second], atoms, level),
            14 => return Ok(Line::Retain(name)),
            _ => return Ok(Line::Release(name)),
        };
        Ok(Line::Plain(name, operation, atoms))
    }

    fn passes(
        &mut self,
        name: usize,
        kind: Loop,
        in_pass: Vec<usize>,
        atoms: Vec<Atom>,
        level: usize,
    ) -> Result<Line, usize> {
        Ok(Line::Loop(name, kind, in_pass, atoms, self.tree(level + 1)?))
    }
}
