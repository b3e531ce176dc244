//! The parameters that are only read: those that their function nowhere hands over, nor passes to one that does.

use super::annotate::named;
use super::code::{Atom, Line, Operation, Tree};
use super::names::Names;
use super::script::Loop;

/// For each function the parameters that it borrows.
pub struct Borrowed(Vec<Names>);

impl Borrowed {
    /// All but main's to begin with; then those that are handed over go, until none does.
    pub fn by(bodies: &[&Tree]) -> Borrowed {
        let mut borrowed = Borrowed(vec![(0..8).collect(); bodies.len()]);
        borrowed.0[0] = Names::default();
        loop {
            let left: Vec<Names> =
                bodies.iter().zip(&borrowed.0).map(|(body, names)| *names - borrowed.handed_over(body)).collect();
            if left == borrowed.0 {
                return borrowed;
            }
            borrowed = Borrowed(left);
        }
    }

    pub fn has(&self, function: usize, parameter: usize) -> bool {
        self.0[function].has(parameter)
    }

    /// The arguments of a call: those that are handed over, and those that are read.
    pub fn split(&self, function: usize, atoms: &[Atom]) -> (Vec<Atom>, Vec<Atom>) {
        let (read, handed): (Vec<_>, Vec<_>) =
            atoms.iter().enumerate().partition(|(place, _)| self.has(function, *place));
        let only = |placed: Vec<(usize, &Atom)>| placed.into_iter().map(|(_, atom)| *atom).collect();
        (only(handed), only(read))
    }

    fn handed_over(&self, tree: &Tree) -> Names {
        tree.lines.iter().fold(named(&[tree.end]), |names, line| names | self.handed_by(line))
    }

    fn handed_by(&self, line: &Line) -> Names {
        match line {
            Line::Plain(_, Operation::Literal(_), atoms) => named(atoms),
            Line::Plain(_, Operation::Call(function), atoms) => named(&self.split(*function, atoms).0),
            Line::If(_, _, first, second) => self.handed_over(first) | self.handed_over(second),
            Line::Loop(_, Loop::Reduce, _, atoms, tree) => named(&atoms[..1]) | self.handed_over(tree),
            Line::Loop(.., tree) => self.handed_over(tree),
            _ => Names::default(),
        }
    }
}
