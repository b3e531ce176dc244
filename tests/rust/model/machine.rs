//! The code of a script worked on a store: one delivery.

use super::code::{Atom, Coded, Line, Operation, Tree};
use super::script::{Arithmetic, Loop};
use super::store::Store;

pub const CALL_DEPTH_MAX: usize = 32;

/// A delivery's end: its number and steps, and the least number of free cells that was counted over it.
pub struct Ended {
    pub number: u64,
    pub lowest: u64,
    pub steps: u64,
}

struct Machine<'a> {
    functions: &'a [Coded],
    store: Store,
    left: u64,
    lowest: usize,
}

/// Works one delivery on a sound store.
pub fn deliver(functions: &[Coded], store: &mut Store, readings: &[i64], budget: u64) -> Ended {
    let mut machine = Machine { functions, store: store.clone(), left: budget, lowest: store.free() };
    let number = machine.delivery(readings).err().unwrap_or(0);
    machine.look();
    let ended = Ended { number, lowest: machine.lowest as u64, steps: budget - machine.left };
    if number == 0 {
        *store = machine.store;
    } else {
        store.chain_upwards();
    }
    ended
}

impl Machine<'_> {
    fn delivery(&mut self, readings: &[i64]) -> Result<(), u64> {
        let cell = self.acquire(0, readings)?;
        let old = self.store.totals;
        let is_array = self.functions[0].depth > 0;
        if is_array {
            self.store.retain(old as usize);
        }
        self.store.totals = self.function(0, vec![old, cell], 1)?;
        if is_array {
            self.store.release(old as usize);
        }
        Ok(())
    }

    fn function(&mut self, function: usize, arguments: Vec<i64>, call_depth: usize) -> Result<i64, u64> {
        let coded = &self.functions[function];
        let mut names = vec![0; coded.depths.len()];
        for ((name, _), argument) in coded.parameters.iter().zip(arguments) {
            names[*name] = argument;
        }
        self.tree(coded, &coded.tree, &mut names, call_depth)
    }

    /// Counts the free cells: at each step, after each cell that is taken, and as the work ends.
    fn look(&mut self) {
        self.lowest = self.lowest.min(self.store.free());
    }

    fn step(&mut self) -> Result<(), u64> {
        self.look();
        self.left = self.left.checked_sub(1).ok_or(21u64)?;
        Ok(())
    }

    fn tree(&mut self, coded: &Coded, tree: &Tree, names: &mut Vec<i64>, call_depth: usize) -> Result<i64, u64> {
        for line in &tree.lines {
            self.line(coded, line, names, call_depth)?;
        }
        Ok(value(&tree.end, names))
    }

    fn line(&mut self, coded: &Coded, line: &Line, names: &mut Vec<i64>, call_depth: usize) -> Result<(), u64> {
        let (name, result) = match line {
            Line::Retain(name) => {
                self.store.retain(names[*name] as usize);
                return Ok(());
            }
            Line::Release(name) => {
                self.store.release(names[*name] as usize);
                return Ok(());
            }
            Line::Plain(name, operation, atoms) => {
                self.step()?;
                let atoms = atoms.iter().map(|atom| value(atom, names)).collect();
                (*name, self.operation(*operation, atoms, coded.depths[*name], call_depth)?)
            }
            Line::If(name, guard, first, second) => {
                self.step()?;
                let tree = if answer(value(guard, names))? { first } else { second };
                (*name, self.tree(coded, tree, names, call_depth)?)
            }
            Line::Loop(name, kind, in_pass, atoms, tree) => {
                self.step()?;
                let atoms: Vec<i64> = atoms.iter().map(|atom| value(atom, names)).collect();
                let depth = coded.depths[*name];
                let array = atoms[atoms.len() - 1];
                let mut carried = match kind {
                    Loop::Reduce => atoms[0],
                    Loop::Rewriting if self.store.cells[array as usize].count == 1 => array,
                    _ => self.acquire(depth - 1, &[])?,
                };
                for i in 0..self.store.elements(array as usize).len() {
                    let element = self.store.elements(array as usize)[i];
                    self.step()?;
                    names[in_pass[0]] = carried; // a reduce's first name; for the others the element comes in its place
                    names[in_pass[in_pass.len() - 1]] = element;
                    let result = self.tree(coded, tree, names, call_depth)?;
                    if *kind == Loop::Rewriting && carried == array {
                        self.store.overwrite(array as usize, i, result);
                    } else {
                        carried = self.carry(*kind, depth, carried, element, result)?;
                    }
                }
                if *kind == Loop::Rewriting && carried != array {
                    self.store.release(array as usize);
                }
                (*name, carried)
            }
        };
        names[name] = result;
        Ok(())
    }

    fn acquire(&mut self, depth: usize, elements: &[i64]) -> Result<i64, u64> {
        let cell = self.store.acquire(depth as u32, elements).ok_or(25u64)?;
        self.look();
        Ok(cell as i64)
    }

    /// What a pass over an element carries on, in a loop whose result has this depth.
    fn carry(&mut self, kind: Loop, depth: usize, carried: i64, element: i64, result: i64) -> Result<i64, u64> {
        match kind {
            Loop::Reduce => return Ok(result),
            Loop::Map | Loop::Rewriting => self.store.append(carried as usize, result),
            Loop::Filter => {
                if answer(result)? {
                    if depth > 1 {
                        self.store.retain(element as usize);
                    }
                    self.store.append(carried as usize, element);
                }
            }
        }
        Ok(carried)
    }

    /// What a line without trees gives for the values of its atoms; `depth` is that of its result.
    fn operation(
        &mut self,
        operation: Operation,
        atoms: Vec<i64>,
        depth: usize,
        call_depth: usize,
    ) -> Result<i64, u64> {
        match operation {
            Operation::Arithmetic(Arithmetic::Sum) => atoms[0].checked_add(atoms[1]).ok_or(24),
            Operation::Arithmetic(Arithmetic::Difference) => atoms[0].checked_sub(atoms[1]).ok_or(24),
            Operation::Arithmetic(Arithmetic::Less) => Ok(i64::from(atoms[0] < atoms[1])),
            Operation::Call(_) if call_depth == CALL_DEPTH_MAX => Err(22),
            Operation::Call(function) => self.function(function, atoms, call_depth + 1),
            Operation::Literal(depth) => self.acquire(depth, &atoms),
            Operation::Index => {
                let elements = self.store.elements(atoms[0] as usize);
                usize::try_from(atoms[1]).ok().and_then(|i| elements.get(i).copied()).ok_or(23)
            }
            Operation::Length => Ok(self.store.elements(atoms[0] as usize).len() as i64),
            Operation::Iota => {
                let count = count(atoms[0])?;
                self.acquire(0, &(0..count).collect::<Vec<i64>>())
            }
            Operation::Replicate => {
                let count = count(atoms[0])?;
                let made = self.acquire(depth - 1, &vec![atoms[1]; count as usize])?;
                for _ in 0..if depth > 1 { count } else { 0 } {
                    self.store.retain(atoms[1] as usize);
                }
                Ok(made)
            }
        }
    }
}

/// What a guard says: 1 is yes and 0 is no.
fn answer(guard: i64) -> Result<bool, u64> {
    match guard {
        0 => Ok(false),
        1 => Ok(true),
        _ => Err(28),
    }
}

/// A count that an array can have.
fn count(value: i64) -> Result<i64, u64> {
    if (0..=16).contains(&value) {
        Ok(value)
    } else {
        Err(26)
    }
}

fn value(atom: &Atom, names: &[i64]) -> i64 {
    match atom {
        Atom::Number(value) => *value,
        Atom::Name(name) => names[*name],
    }
}
