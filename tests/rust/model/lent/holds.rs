//! Lent code, the third walk: how many references each name holds.

use crate::model::code::{Atom, Coded, Line, Operation, Tree};
use crate::model::names::Names;
use crate::model::script::Loop;

/// Follows the holds of each function; or gives the first line at fault.
pub fn follow(functions: &[Coded]) -> Result<(), usize> {
    let borrowed = borrowed(functions);
    let mut at = 0;
    for (coded, lent) in functions.iter().zip(&borrowed) {
        let mut walk = Walk {
            functions,
            borrowed: &borrowed,
            depths: &coded.depths,
            lent: *lent,
            at: at + 1 + coded.parameters.len(),
            holds: [0; 256],
            kept: Names::default(),
            pending: None,
        };
        let parameters: Vec<usize> = coded.parameters.iter().map(|(name, _)| *name).collect();
        for name in parameters.iter().filter(|name| !lent.has(**name)) {
            walk.bind(*name);
        }
        walk.tree(&coded.tree, &parameters)?;
        at = walk.at;
    }
    Ok(())
}

// ---- Borrowed parameters ----

/// The names of the parameters that each function borrows: all but main's, less those that are spent or raised, until
/// none is.
fn borrowed(functions: &[Coded]) -> Vec<Names> {
    let all = |coded: &Coded| coded.parameters.iter().map(|(name, _)| *name).collect::<Names>();
    let mut borrowed: Vec<Names> = functions.iter().map(all).collect();
    borrowed[0] = Names::default();
    loop {
        let left: Vec<Names> = functions
            .iter()
            .zip(&borrowed)
            .map(|(coded, names)| *names - spent_in(&coded.tree, functions, &borrowed))
            .collect();
        if left == borrowed {
            return borrowed;
        }
        borrowed = left;
    }
}

/// The names that a tree spends or raises somewhere.
fn spent_in(tree: &Tree, functions: &[Coded], borrowed: &[Names]) -> Names {
    let mut spent: Names = names_of(&[tree.end]).into_iter().collect();
    for line in &tree.lines {
        let (handed, _) = split(line, functions, borrowed);
        spent = handed.into_iter().fold(spent, Names::with);
        match line {
            Line::If(_, _, first, second) => {
                spent = spent | spent_in(first, functions, borrowed) | spent_in(second, functions, borrowed);
            }
            Line::Loop(.., tree) => spent = spent | spent_in(tree, functions, borrowed),
            Line::Retain(name) | Line::Release(name) => spent = spent.with(*name),
            Line::Plain(..) => {}
        }
    }
    spent
}

/// The names of some atoms, as often as they occur.
fn names_of(atoms: &[Atom]) -> Vec<usize> {
    atoms.iter().filter_map(|atom| if let Atom::Name(name) = atom { Some(*name) } else { None }).collect()
}

/// The names of a line's atoms, as often as they occur: those of which it spends a hold, and those that it reads.
fn split(line: &Line, functions: &[Coded], borrowed: &[Names]) -> (Vec<usize>, Vec<usize>) {
    let is_handed = |place: usize| match line {
        Line::Plain(_, Operation::Literal(_), _) => true,
        Line::Plain(_, Operation::Call(f), _) => !borrowed[*f].has(functions[*f].parameters[place].0),
        Line::Loop(_, Loop::Reduce, ..) => place == 0,
        Line::Loop(_, Loop::Rewriting, ..) => true,
        _ => false,
    };
    let (handed, read): (Vec<_>, Vec<_>) = line.atoms().iter().enumerate().partition(|(place, _)| is_handed(*place));
    let only = |placed: Vec<(usize, &Atom)>| placed.into_iter().map(|(_, atom)| *atom).collect::<Vec<Atom>>();
    (names_of(&only(handed)), names_of(&only(read)))
}

// ---- Holds ----

/// The line that is looked at, the holds of each name, the names that keep one through the passes in progress, and the
/// name that the very next line may raise from none.
struct Walk<'a> {
    functions: &'a [Coded],
    borrowed: &'a [Names],
    depths: &'a [usize],
    lent: Names,
    at: usize,
    holds: [usize; 256],
    kept: Names,
    pending: Option<usize>,
}

impl Walk<'_> {
    /// A name that holds one from here on, if it is an array.
    fn bind(&mut self, name: usize) {
        self.holds[name] = usize::from(self.depths[name] > 0);
    }

    /// A name that holds none until it is raised, on the next line only.
    fn bind_pending(&mut self, name: usize) {
        self.pending = Some(name).filter(|name| self.depths[*name] > 0);
    }

    fn spend(&mut self, name: usize, at: usize) -> Result<(), usize> {
        if self.depths[name] == 0 {
            return Ok(());
        }
        if self.holds[name] <= usize::from(self.kept.has(name)) {
            return Err(at);
        }
        self.holds[name] -= 1;
        Ok(())
    }

    fn read(&self, name: usize, at: usize) -> Result<(), usize> {
        if self.depths[name] == 0 || self.lent.has(name) || self.holds[name] > 0 {
            return Ok(());
        }
        Err(at)
    }

    /// Follows a tree to its end line, which it gives. No name bound in it, nor those of its function or pass, holds
    /// one there.
    fn tree(&mut self, tree: &Tree, inside: &[usize]) -> Result<usize, usize> {
        for line in &tree.lines {
            self.line(line)?;
        }
        self.pending = None;
        let end = self.at;
        self.at += 2;
        if let Atom::Name(name) = tree.end {
            self.spend(name, end)?;
        }
        let mut bound = tree.lines.iter().filter_map(Line::name).chain(inside.iter().copied());
        if bound.any(|name| self.holds[name] > 0) {
            return Err(end);
        }
        Ok(end)
    }

    fn line(&mut self, line: &Line) -> Result<(), usize> {
        let at = self.at;
        self.at += 1 + line.atoms().len();
        let pending = self.pending.take();
        let (handed, read) = split(line, self.functions, self.borrowed);
        for name in handed {
            self.spend(name, at)?;
        }
        for name in &read {
            self.read(*name, at)?;
        }
        match line {
            Line::Retain(name) => {
                if pending != Some(*name) {
                    self.read(*name, at)?;
                }
                self.holds[*name] += 1;
            }
            Line::Release(name) => self.spend(*name, at)?,
            Line::Plain(name, Operation::Index, _) => self.bind_pending(*name),
            Line::Plain(name, ..) => self.bind(*name),
            Line::If(name, _, first, second) => {
                let before = self.holds;
                self.tree(first, &[])?;
                let after = std::mem::replace(&mut self.holds, before);
                let end = self.tree(second, &[])?;
                if self.holds != after {
                    return Err(end);
                }
                self.bind(*name);
            }
            Line::Loop(name, kind, in_pass, _, tree) => {
                let outer = self.kept;
                if *kind != Loop::Rewriting {
                    self.kept = read.into_iter().fold(outer, Names::with);
                }
                self.passes(*kind, in_pass, tree)?;
                self.kept = outer;
                self.bind(*name);
            }
        }
        Ok(())
    }

    fn passes(&mut self, kind: Loop, in_pass: &[usize], tree: &Tree) -> Result<(), usize> {
        let before = self.holds;
        if kind == Loop::Reduce {
            self.bind(in_pass[0]);
        }
        self.bind_pending(in_pass[in_pass.len() - 1]);
        let end = self.tree(tree, in_pass)?;
        if self.holds != before {
            return Err(end);
        }
        Ok(())
    }
}
