//! Lent code, the second walk: depths and scope. No name is bound twice in a function, and each is used only where it
//! is in scope.

use crate::model::code::{Atom, Coded, Line, Operation, Tree};
use crate::model::names::Names;
use crate::model::rules::DEPTH_MAX;
use crate::model::script::Loop;

/// Finds the depth of each name of each function; or the first line at fault.
pub fn find(functions: &mut [Coded], depth: u64) -> Result<(), usize> {
    let main = &functions[0];
    let shape: Vec<u64> = main.parameters.iter().map(|(_, depth)| *depth as u64).collect();
    if depth > DEPTH_MAX as u64 || main.depth as u64 != depth || shape != [depth, 1] {
        return Err(0);
    }
    let signatures: Vec<(Vec<usize>, usize)> = functions
        .iter()
        .map(|coded| (coded.parameters.iter().map(|(_, depth)| *depth).collect(), coded.depth))
        .collect();
    let mut at = 0;
    for coded in functions {
        let depths = vec![0; 256];
        let mut walk = Walk { signatures: &signatures, at, bound: Names::default(), known: Names::default(), depths };
        walk.function(coded)?;
        at = walk.at;
        coded.depths = walk.depths;
    }
    Ok(())
}

/// The line that is looked at, the names bound so far in the function, and those of them that are in scope.
struct Walk<'a> {
    signatures: &'a [(Vec<usize>, usize)],
    at: usize,
    bound: Names,
    known: Names,
    depths: Vec<usize>,
}

impl Walk<'_> {
    fn function(&mut self, coded: &Coded) -> Result<(), usize> {
        self.at += 1;
        for (name, depth) in &coded.parameters {
            self.bind(*name, self.at)?;
            self.enter(*name, *depth);
            self.at += 1;
        }
        let (depth, end) = self.tree(&coded.tree)?;
        expect(depth == coded.depth, end)
    }

    fn bind(&mut self, name: usize, at: usize) -> Result<(), usize> {
        expect(!self.bound.has(name), at)?;
        self.bound = self.bound.with(name);
        Ok(())
    }

    fn enter(&mut self, name: usize, depth: usize) {
        self.known = self.known.with(name);
        self.depths[name] = depth;
    }

    fn depth(&self, atom: &Atom, at: usize) -> Result<usize, usize> {
        match atom {
            Atom::Number(_) => Ok(0),
            Atom::Name(name) if self.known.has(*name) => Ok(self.depths[*name]),
            Atom::Name(_) => Err(at),
        }
    }

    /// The depth of a tree, and its end line. What is bound in it goes out of scope.
    fn tree(&mut self, tree: &Tree) -> Result<(usize, usize), usize> {
        let outer = self.known;
        for line in &tree.lines {
            self.line(line)?;
        }
        let end = self.at;
        let depth = self.depth(&tree.end, end)?;
        self.at += 2;
        self.known = outer;
        Ok((depth, end))
    }

    fn line(&mut self, line: &Line) -> Result<(), usize> {
        let at = self.at;
        self.at += 1 + line.atoms().len();
        let Some(name) = line.name() else {
            let (Line::Retain(name) | Line::Release(name)) = line else { unreachable!() };
            return expect(self.depth(&Atom::Name(*name), at)? > 0, at);
        };
        self.bind(name, at)?;
        let atoms: Vec<usize> = line.atoms().iter().map(|atom| self.depth(atom, at)).collect::<Result<_, _>>()?;
        let depth = match line {
            Line::Plain(_, operation, _) => self.operation(*operation, &atoms).ok_or(at)?,
            Line::If(_, _, first, second) => {
                expect(atoms[0] == 0, at)?;
                let (first, _) = self.tree(first)?;
                let (second, end) = self.tree(second)?;
                expect(first == second, end)?;
                second
            }
            Line::Loop(_, kind, in_pass, _, tree) => self.passes(*kind, in_pass, &atoms, tree, at)?,
            Line::Retain(_) | Line::Release(_) => unreachable!(),
        };
        self.enter(name, depth);
        Ok(())
    }

    /// The depth that a line without trees gives, if its atoms have the right ones.
    fn operation(&self, operation: Operation, atoms: &[usize]) -> Option<usize> {
        let (holds, depth) = match operation {
            Operation::Arithmetic(_) => (atoms == [0, 0], 0),
            Operation::Call(function) => {
                let (parameters, depth) = &self.signatures[function];
                (atoms == parameters.as_slice(), *depth)
            }
            Operation::Literal(depth) => (atoms.iter().all(|found| *found == depth), depth + 1),
            Operation::Index => (atoms[0] > 0 && atoms[1] == 0, atoms[0].saturating_sub(1)),
            Operation::Length => (atoms[0] > 0, 0),
            Operation::Iota => (atoms[0] == 0, 1),
            Operation::Replicate => (atoms[0] == 0 && atoms[1] < DEPTH_MAX, atoms[1] + 1),
        };
        holds.then_some(depth)
    }

    /// The depth that a loop gives; the names of a pass are in scope in its tree.
    fn passes(
        &mut self,
        kind: Loop,
        in_pass: &[usize],
        atoms: &[usize],
        tree: &Tree,
        at: usize,
    ) -> Result<usize, usize> {
        let array = atoms[atoms.len() - 1];
        expect(if kind == Loop::Rewriting { array == 1 } else { array > 0 }, at)?;
        let outer = self.known;
        for (i, name) in in_pass.iter().enumerate() {
            self.bind(*name, at)?;
            self.enter(*name, if i + 1 == atoms.len() { array - 1 } else { atoms[i] });
        }
        let (body, end) = self.tree(tree)?;
        self.known = outer;
        let (holds, depth) = match kind {
            Loop::Map => (body < DEPTH_MAX, body + 1),
            Loop::Rewriting => (body == 0, 1),
            Loop::Filter => (body == 0, array),
            Loop::Reduce => (body == atoms[0], body),
        };
        expect(holds, end)?;
        Ok(depth)
    }
}

fn expect(holds: bool, at: usize) -> Result<(), usize> {
    if holds {
        Ok(())
    } else {
        Err(at)
    }
}
