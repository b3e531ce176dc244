//! The annotated A-normal code of a script, as trees of lines and as rows.

use super::annotate;
use super::borrow::Borrowed;
use super::script::{Arithmetic, Form, Function, Loop, Node};

#[derive(Clone, Copy, PartialEq, Eq, Debug)]
pub enum Atom {
    Number(i64),
    Name(usize),
}

/// What a line without trees does; a call has its function, a literal its element depth.
#[derive(Clone, Copy, PartialEq, Eq, Debug)]
pub enum Operation {
    Arithmetic(Arithmetic),
    Call(usize),
    Literal(usize),
    Index,
    Length,
    Iota,
    Replicate,
}

/// A line, with the name that it binds first. A loop has the names of a pass, the element's last, and its atoms, the
/// array last.
#[derive(Clone, Debug)]
pub enum Line {
    Plain(usize, Operation, Vec<Atom>),
    If(usize, Atom, Tree, Tree),
    Loop(usize, Loop, Vec<usize>, Vec<Atom>, Tree),
    Retain(usize),
    Release(usize),
}

impl Line {
    /// The name that it binds.
    pub fn name(&self) -> Option<usize> {
        match self {
            Line::Plain(name, ..) | Line::If(name, ..) | Line::Loop(name, ..) => Some(*name),
            Line::Retain(_) | Line::Release(_) => None,
        }
    }

    pub fn atoms(&self) -> &[Atom] {
        match self {
            Line::Plain(_, _, atoms) | Line::Loop(_, _, _, atoms, _) => atoms,
            Line::If(_, atom, ..) => std::slice::from_ref(atom),
            Line::Retain(_) | Line::Release(_) => &[],
        }
    }
}

#[derive(Clone, Debug)]
pub struct Tree {
    pub lines: Vec<Line>,
    pub end: Atom,
}

/// A function's code; its parameters have their names and depths, and `depths` has the depth of each of its names.
#[derive(Clone, Debug)]
pub struct Coded {
    pub depth: usize,
    pub parameters: Vec<(usize, usize)>,
    pub depths: Vec<usize>,
    pub tree: Tree,
}

pub fn translate(functions: &[Function]) -> Vec<Coded> {
    let mut coded: Vec<Coded> = functions.iter().map(|function| plain_code(function, functions)).collect();
    let borrowed = Borrowed::by(&coded.iter().map(|coded| &coded.tree).collect::<Vec<_>>());
    for (f, coded) in coded.iter_mut().enumerate() {
        coded.tree = annotate::body(f, &coded.tree, coded.parameters.len(), &coded.depths, &borrowed);
    }
    coded
}

/// A function's code without retains and releases.
fn plain_code(function: &Function, functions: &[Function]) -> Coded {
    let depths: Vec<usize> = function.parameters.iter().map(|parameter| parameter.depth).collect();
    let parameters = depths.iter().copied().enumerate().collect();
    let mut lowering = Lowering { functions, depths };
    let mut scope = [Atom::Number(0); 256];
    for (name, parameter) in function.parameters.iter().enumerate() {
        scope[parameter.name] = Atom::Name(name);
    }
    let tree = lowering.tree(&function.body, &scope);
    Coded { depth: function.depth, parameters, depths: lowering.depths, tree }
}

// ---- The normal form ----

struct Lowering<'a> {
    functions: &'a [Function],
    depths: Vec<usize>,
}

impl Lowering<'_> {
    fn new_name(&mut self, depth: usize) -> usize {
        self.depths.push(depth);
        self.depths.len() - 1
    }

    fn depth(&self, atom: Atom) -> usize {
        match atom {
            Atom::Number(_) => 0,
            Atom::Name(name) => self.depths[name],
        }
    }

    fn tree(&mut self, node: &Node, scope: &[Atom; 256]) -> Tree {
        let mut lines = Vec::new();
        let end = self.lines(node, scope, &mut lines);
        Tree { lines, end }
    }

    /// Writes the lines of a node, and gives its atom.
    fn lines(&mut self, node: &Node, scope: &[Atom; 256], lines: &mut Vec<Line>) -> Atom {
        match &node.form {
            Form::Number(value) => Atom::Number(*value),
            Form::Name(name) => scope[*name],
            Form::Let(name, parts) => {
                let mut inner = *scope;
                inner[*name] = self.lines(&parts[0], scope, lines);
                self.lines(&parts[1], &inner, lines)
            }
            Form::Arithmetic(operation, parts) => {
                self.plain(Operation::Arithmetic(*operation), parts.as_slice(), scope, lines)
            }
            Form::Call(function, parts) => self.plain(Operation::Call(*function), parts, scope, lines),
            Form::Literal(depth, parts) => self.plain(Operation::Literal(*depth), parts, scope, lines),
            Form::Index(parts) => self.plain(Operation::Index, parts.as_slice(), scope, lines),
            Form::Length(part) => self.plain(Operation::Length, std::slice::from_ref(part.as_ref()), scope, lines),
            Form::Iota(part) => self.plain(Operation::Iota, std::slice::from_ref(part.as_ref()), scope, lines),
            Form::Replicate(parts) => self.plain(Operation::Replicate, parts.as_slice(), scope, lines),
            Form::If(parts) => self.choice(parts, scope, lines),
            Form::Loop(kind, names, parts) => self.passes(*kind, names, parts, scope, lines),
        }
    }

    /// A line after the lines of its parts.
    fn plain(&mut self, operation: Operation, parts: &[Node], scope: &[Atom; 256], lines: &mut Vec<Line>) -> Atom {
        let atoms: Vec<Atom> = parts.iter().map(|part| self.lines(part, scope, lines)).collect();
        let depth = match operation {
            Operation::Arithmetic(_) | Operation::Length => 0,
            Operation::Call(function) => self.functions[function].depth,
            Operation::Literal(depth) => depth + 1,
            Operation::Index => self.depth(atoms[0]) - 1,
            Operation::Iota => 1,
            Operation::Replicate => self.depth(atoms[1]) + 1,
        };
        let name = self.new_name(depth);
        lines.push(Line::Plain(name, operation, atoms));
        Atom::Name(name)
    }

    fn choice(&mut self, parts: &[Node; 3], scope: &[Atom; 256], lines: &mut Vec<Line>) -> Atom {
        let guard = self.lines(&parts[0], scope, lines);
        let name = self.new_name(0);
        let first = self.tree(&parts[1], scope);
        let second = self.tree(&parts[2], scope);
        self.depths[name] = self.depth(first.end);
        lines.push(Line::If(name, guard, first, second));
        Atom::Name(name)
    }

    /// A loop: its name and the names of a pass are taken after the lines of its parts, and before those of its tree.
    fn passes(
        &mut self,
        kind: Loop,
        names: &[usize],
        parts: &[Node],
        scope: &[Atom; 256],
        lines: &mut Vec<Line>,
    ) -> Atom {
        let (body, before) = parts.split_last().unwrap();
        let atoms: Vec<Atom> = before.iter().map(|part| self.lines(part, scope, lines)).collect();
        let name = self.new_name(0);
        let mut inner = *scope;
        let mut in_pass = Vec::new();
        for (i, (written, atom)) in names.iter().zip(&atoms).enumerate() {
            let depth = self.depth(*atom) - usize::from(i + 1 == atoms.len()); // the last is the array: its element
            in_pass.push(self.new_name(depth));
            inner[*written] = Atom::Name(in_pass[i]);
        }
        let tree = self.tree(body, &inner);
        self.depths[name] = match kind {
            Loop::Map | Loop::Rewriting => self.depth(tree.end) + 1,
            Loop::Filter | Loop::Reduce => self.depth(atoms[0]),
        };
        lines.push(Line::Loop(name, kind, in_pass, atoms, tree));
        Atom::Name(name)
    }
}

// ---- Rows ----

pub fn rows(functions: &[Coded]) -> Vec<(u8, i64)> {
    let mut rows = Vec::new();
    for function in functions {
        rows.push((0, (function.parameters.len() + 256 * function.depth) as i64));
        rows.extend(function.parameters.iter().map(|(name, depth)| (1, (name + 256 * depth) as i64)));
        tree_rows(&function.tree, &mut rows);
    }
    rows
}

fn atom_row(atom: &Atom) -> (u8, i64) {
    match atom {
        Atom::Number(value) => (2, *value),
        Atom::Name(name) => (3, *name as i64),
    }
}

/// The kind of a line, and what its operand has above the name.
fn operation_row(operation: Operation, atoms: usize) -> (u8, usize) {
    match operation {
        Operation::Arithmetic(Arithmetic::Sum) => (4, 0),
        Operation::Arithmetic(Arithmetic::Difference) => (5, 0),
        Operation::Arithmetic(Arithmetic::Less) => (6, 0),
        Operation::Call(function) => (8, 256 * function),
        Operation::Literal(depth) => (9, 256 * atoms + 65536 * depth),
        Operation::Index => (10, 0),
        Operation::Length => (11, 0),
        Operation::Iota => (17, 0),
        Operation::Replicate => (18, 0),
    }
}

fn loop_kind(kind: Loop) -> u8 {
    match kind {
        Loop::Map => 13,
        Loop::Filter => 19,
        Loop::Reduce => 20,
        Loop::Rewriting => 21,
    }
}

fn tree_rows(tree: &Tree, rows: &mut Vec<(u8, i64)>) {
    for line in &tree.lines {
        let (kind, operand) = match line {
            Line::Plain(name, operation, atoms) => {
                let (kind, above) = operation_row(*operation, atoms.len());
                (kind, name + above)
            }
            Line::If(name, ..) => (12, *name),
            Line::Loop(name, kind, in_pass, ..) => {
                let names = in_pass.iter().rev().fold(0, |above, name| name + 256 * above);
                (loop_kind(*kind), name + 256 * names)
            }
            Line::Retain(name) => (14, *name),
            Line::Release(name) => (15, *name),
        };
        rows.push((kind, operand as i64));
        rows.extend(line.atoms().iter().map(atom_row));
        match line {
            Line::If(_, _, first, second) => {
                tree_rows(first, rows);
                tree_rows(second, rows);
            }
            Line::Loop(.., tree) => tree_rows(tree, rows),
            _ => {}
        }
    }
    rows.extend([(16, 0), atom_row(&tree.end)]);
}
