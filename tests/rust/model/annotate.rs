//! Live sets, and the retains and releases that stand in annotated code.

use super::borrow::Borrowed;
use super::code::{Atom, Line, Operation, Tree};
use super::names::Names;
use super::script::Loop;

/// The body of a function with its retains and releases, by the depths of all names. It opens by releasing the
/// parameters that it owns and does not use.
pub fn body(function: usize, plain: &Tree, parameters: usize, depths: &[usize], borrowed: &Borrowed) -> Tree {
    let lent = (0..parameters).filter(|parameter| borrowed.has(function, *parameter)).collect();
    let annotation = Annotation { depths, borrowed, lent };
    let mut tree = annotation.tree(plain, Names::default());
    let unused = (0..parameters).collect::<Names>() - live(plain, Names::default());
    annotation.open_with_releases(&mut tree, unused);
    tree
}

// ---- Live sets ----

pub fn named(atoms: &[Atom]) -> Names {
    atoms.iter().filter_map(|atom| if let Atom::Name(name) = atom { Some(*name) } else { None }).collect()
}

/// The names from outside that a tree uses.
fn outer_uses(tree: &Tree) -> Names {
    let mut uses = named(&[tree.end]);
    let mut inside = Names::default();
    for line in &tree.lines {
        uses = uses | named(line.atoms()) | inner_uses(line);
        inside = inside | line.name().into_iter().collect();
    }
    uses - inside
}

/// The names from outside that a line's trees use.
fn inner_uses(line: &Line) -> Names {
    match line {
        Line::If(_, _, first, second) => outer_uses(first) | outer_uses(second),
        Line::Loop(_, _, in_pass, _, tree) => outer_uses(tree) - in_pass.iter().copied().collect(),
        _ => Names::default(),
    }
}

/// What is live before a tree, after which `after` is live.
fn live(tree: &Tree, after: Names) -> Names {
    tree.lines.iter().rev().fold(named(&[tree.end]) | after, |after, line| live_before(line, after))
}

fn live_before(line: &Line, after: Names) -> Names {
    let atoms = named(line.atoms());
    match line {
        Line::Plain(name, ..) => atoms | after.without(*name),
        Line::If(name, _, first, second) => {
            let after = after.without(*name);
            atoms | live(first, after) | live(second, after)
        }
        Line::Loop(name, _, in_pass, _, tree) => {
            let after = after.without(*name) | inner_uses(line);
            atoms | (live(tree, after) - in_pass.iter().copied().collect())
        }
        Line::Retain(_) | Line::Release(_) => after,
    }
}

// ---- Retains and releases ----

/// The names that are lent are the function's borrowed parameters: they hold nothing, so nothing is due for them.
struct Annotation<'a> {
    depths: &'a [usize],
    borrowed: &'a Borrowed,
    lent: Names,
}

impl Annotation<'_> {
    fn holds(&self, name: usize) -> bool {
        self.depths[name] > 0 && !self.lent.has(name)
    }

    fn releases(&self, names: Names) -> Vec<Line> {
        names.rising().filter(|name| self.holds(*name)).map(Line::Release).collect()
    }

    fn open_with_releases(&self, tree: &mut Tree, names: Names) {
        tree.lines.splice(0..0, self.releases(names));
    }

    /// A tree with its retains and releases; `after` is live after it.
    fn tree(&self, plain: &Tree, after: Names) -> Tree {
        let mut lives = vec![named(&[plain.end]) | after];
        for line in plain.lines.iter().rev() {
            lives.push(live_before(line, lives[lives.len() - 1]));
        }
        lives.reverse();
        let mut lines = Vec::new();
        for (i, line) in plain.lines.iter().enumerate() {
            self.line(line, lives[i + 1], &mut lines);
        }
        self.retain_handed(&[plain.end], after, &mut lines);
        Tree { lines, end: plain.end }
    }

    /// Retains each handed-over atom that is live after the line or occurs again on it.
    fn retain_handed(&self, atoms: &[Atom], after: Names, lines: &mut Vec<Line>) {
        for (i, atom) in atoms.iter().enumerate() {
            if let Atom::Name(name) = atom {
                if self.holds(*name) && (after.has(*name) || atoms[i + 1..].contains(atom)) {
                    lines.push(Line::Retain(*name));
                }
            }
        }
    }

    /// A line, with what stands before and after it.
    fn line(&self, line: &Line, after: Names, lines: &mut Vec<Line>) {
        let mut done_with: Names = line.name().into_iter().collect();
        match line {
            Line::Plain(_, Operation::Literal(_), atoms) => {
                self.retain_handed(atoms, after, lines);
                lines.push(line.clone());
            }
            Line::Plain(_, Operation::Call(function), atoms) => {
                let (handed, read) = self.borrowed.split(*function, atoms);
                self.retain_handed(&handed, after | named(&read), lines);
                lines.push(line.clone());
                done_with = done_with | named(&read);
            }
            Line::Plain(name, operation, atoms) => {
                lines.push(line.clone());
                if *operation == Operation::Index && self.holds(*name) {
                    lines.push(Line::Retain(*name));
                }
                done_with = done_with | named(atoms);
            }
            Line::If(name, guard, first, second) => {
                let after = after.without(*name);
                let trees = (self.branch(first, second, after), self.branch(second, first, after));
                lines.push(Line::If(*name, *guard, trees.0, trees.1));
            }
            Line::Loop(name, kind, in_pass, atoms, tree) => {
                let (array, start) = atoms.split_last().unwrap();
                let rewrites = *kind == Loop::Map && self.rewrites(*array, *name, after | inner_uses(line));
                let kind = if rewrites { Loop::Rewriting } else { *kind };
                let read = if rewrites { inner_uses(line) } else { named(&[*array]) | inner_uses(line) };
                self.retain_handed(start, after | read, lines);
                let annotated = self.pass(in_pass, tree, after.without(*name) | inner_uses(line));
                lines.push(Line::Loop(*name, kind, in_pass.clone(), atoms.clone(), annotated));
                done_with = done_with | read;
            }
            Line::Retain(_) | Line::Release(_) => lines.push(line.clone()),
        }
        lines.extend(self.releases(done_with - after));
    }

    /// Whether a map that binds a name rewrites its array: both are of numbers, the array holds, and nothing needs it
    /// besides the map; `needed` has what its tree uses and what is live afterwards.
    fn rewrites(&self, array: Atom, name: usize, needed: Names) -> bool {
        match array {
            Atom::Number(_) => false,
            Atom::Name(array) => {
                self.holds(array) && self.depths[array] == 1 && self.depths[name] == 1 && !needed.has(array)
            }
        }
    }

    /// A branch opens by releasing what only the other one uses.
    fn branch(&self, own: &Tree, other: &Tree, after: Names) -> Tree {
        let mut tree = self.tree(own, after);
        self.open_with_releases(&mut tree, outer_uses(other) - live(own, after));
        tree
    }

    /// A loop's tree opens by retaining the element's name, and then releases the names of the pass that it does not
    /// use.
    fn pass(&self, in_pass: &[usize], plain: &Tree, after: Names) -> Tree {
        let mut tree = self.tree(plain, after);
        self.open_with_releases(&mut tree, in_pass.iter().copied().collect::<Names>() - outer_uses(plain));
        let element = in_pass[in_pass.len() - 1];
        if self.holds(element) {
            tree.lines.insert(0, Line::Retain(element));
        }
        tree
    }
}
