//! Code made from nothing: lines of known depths whose holds are followed as they are written, so that most of it is
//! accepted. Now and then a slip is made: a raise or a drop is left out, or a name is used that holds nothing.

use crate::random::Random;
use crate::tune::Rows;

/// A function as its callers see it: the depth of each parameter and whether it is owned, and the result's depth.
#[derive(Clone)]
struct Signature {
    parameters: Vec<(usize, bool)>,
    depth: usize,
}

#[derive(Clone, Copy)]
enum Atom {
    Number(i64),
    Name(usize),
}

/// What is known of each name of a function: its depth while it is in scope, its holds and, if it is bound outside the
/// tree of a pass or a second branch, the holds that must be left at the tree's end. The names come in any order.
struct Maker<'a> {
    random: &'a mut Random,
    rows: Rows,
    signatures: Vec<Signature>,
    slips: bool,
    unused: Vec<usize>,
    depths: [Option<usize>; 256],
    holds: [usize; 256],
    lent: [bool; 256],
    floors: [usize; 256],
    /// lines that the function may still have
    left: usize,
}

/// Code and its main's depth.
pub fn code(random: &mut Random) -> (Rows, usize) {
    let depth = random.below(5).min(random.below(5));
    let mut signatures = vec![Signature { parameters: vec![(depth, true), (1, true)], depth }];
    for _ in 0..random.below(4) {
        let parameters = (0..random.below(4)).map(|_| (random.below(3), random.once_in(2))).collect();
        signatures.push(Signature { parameters, depth: random.below(3) });
    }
    let slips = random.once_in(2);
    let mut maker = Maker {
        random,
        rows: Vec::new(),
        signatures: signatures.clone(),
        slips,
        unused: Vec::new(),
        depths: [None; 256],
        holds: [0; 256],
        lent: [false; 256],
        floors: [0; 256],
        left: 0,
    };
    for signature in &signatures {
        maker.function(signature);
    }
    (maker.rows, depth)
}

/// Code of depth 0 at a limit, or one beyond: of trees within trees, of functions or of lines.
pub fn at_limit(random: &mut Random) -> Rows {
    let mut rows = vec![(0, 2), (1, 0), (1, 257)];
    let mut end = vec![(15, 1), (16, 0), (3, 0)];
    match random.below(3) {
        0 => {
            let trees = 61 + random.below(5);
            let kind = *random.pick(&[12, 12, 13, 20]);
            for tree in 0..trees as i64 {
                let names = [2 + 3 * tree, 3 + 3 * tree, 4 + 3 * tree];
                match kind {
                    12 => rows.extend([(12, names[0]), (2, 1), (16, 0), (2, 5)]),
                    13 => rows.extend([(13, names[0] + 256 * names[1]), (3, 1)]),
                    _ => rows.extend([(20, names[0] + 256 * names[1] + 65536 * names[2]), (2, 5), (3, 1)]),
                }
                let ended = if kind == 13 { vec![(16, 0), (2, 5), (15, names[0])] } else { vec![(16, 0), (2, 5)] };
                end.splice(0..0, ended);
            }
        }
        1 => end.extend((0..28 + random.below(6)).flat_map(|_| [(0, 0), (16, 0), (2, 7)])),
        _ => {
            rows.extend((0..2043 + random.below(4)).flat_map(|_| [(14, 1), (15, 1)]));
            rows.extend((0..random.below(2)).flat_map(|_| [(11, 2), (3, 1)]));
        }
    }
    rows.extend(end);
    rows
}

impl Maker<'_> {
    fn slip(&mut self) -> bool {
        self.slips && self.random.once_in(60)
    }

    fn put(&mut self, kind: u8, operand: usize) {
        self.rows.push((kind, operand as i64));
        self.left = self.left.saturating_sub(1);
    }

    fn put_atoms(&mut self, atoms: &[Atom]) {
        self.rows.extend(atoms.iter().map(|atom| match atom {
            Atom::Number(value) => (2, *value),
            Atom::Name(name) => (3, *name as i64),
        }));
    }

    /// A name that is not bound yet, while there are any.
    fn new_name(&mut self) -> usize {
        if self.unused.is_empty() || self.slip() {
            return self.random.below(256);
        }
        let at = self.random.below(self.unused.len());
        self.unused.swap_remove(at)
    }

    fn bind(&mut self, name: usize, depth: usize, holds: usize) {
        self.depths[name] = Some(depth);
        self.holds[name] = if depth > 0 { holds } else { 0 };
        self.lent[name] = false;
        self.floors[name] = 0;
    }

    fn function(&mut self, signature: &Signature) {
        self.unused = (0..if self.random.once_in(4) { 256 } else { 100 }).collect();
        self.depths = [None; 256];
        self.holds = [0; 256];
        self.left = 10 + self.random.below(60);
        self.put(0, signature.parameters.len() + 256 * signature.depth);
        let mut names = Vec::new();
        for (depth, is_owned) in &signature.parameters {
            let name = self.new_name();
            self.put(1, name + 256 * depth);
            self.bind(name, *depth, usize::from(*is_owned));
            self.lent[name] = !is_owned && *depth > 0;
            names.push(name);
        }
        self.tree(signature.depth, 1, &names, None);
    }

    // ---- Trees ----

    /// A tree of some depth; these names are bound with it. Where targets are given, the names from outside hold so
    /// many at its end.
    fn tree(&mut self, depth: usize, level: usize, inside: &[usize], targets: Option<[usize; 256]>) {
        let mut before = self.depths;
        inside.iter().for_each(|name| before[*name] = None);
        for _ in 0..1 + self.random.below(5) {
            if self.left > 0 && self.unused.len() > 20 {
                self.line(level);
            }
        }
        let end = self.atom(depth);
        self.ready(&[end], &[]);
        for name in self.in_scope() {
            let target = if before[name].is_none() { 0 } else { targets.map_or(self.holds[name], |holds| holds[name]) };
            self.bring(name, target);
        }
        self.put(16, 0);
        self.put_atoms(&[end]);
        self.depths = before;
    }

    fn in_scope(&self) -> Vec<usize> {
        (0..256).filter(|name| self.depths[*name].is_some()).collect()
    }

    /// Raises or drops a name until it holds so many, if it can.
    fn bring(&mut self, name: usize, target: usize) {
        while self.holds[name] > target && !self.slip() {
            self.put(15, name);
            self.holds[name] -= 1;
        }
        while self.holds[name] < target && self.holds[name] > 0 {
            self.put(14, name);
            self.holds[name] += 1;
        }
    }

    // ---- Atoms ----

    fn names(&mut self, depth: usize, lent_too: bool) -> Vec<usize> {
        let slips = self.slip();
        let fits = |name: &usize| {
            let holds = depth == 0 || self.holds[*name] > 0 || lent_too && self.lent[*name];
            self.depths[*name] == Some(depth) && (holds || slips)
        };
        (0..256).filter(fits).collect()
    }

    /// An atom of some depth that is handed over.
    fn atom(&mut self, depth: usize) -> Atom {
        let names = self.names(depth, false);
        self.one_of(names, depth)
    }

    /// An atom of some depth that is read.
    fn read_atom(&mut self, depth: usize) -> Atom {
        let names = self.names(depth, true);
        self.one_of(names, depth)
    }

    /// One of these names, or a number or a new array.
    fn one_of(&mut self, names: Vec<usize>, depth: usize) -> Atom {
        if !names.is_empty() && !self.random.once_in(6) {
            return Atom::Name(*self.random.pick(&names));
        }
        if depth == 0 {
            return Atom::Number(self.random.below(4) as i64);
        }
        let name = self.new_name();
        if depth == 1 && self.random.once_in(2) {
            self.put(17, name);
            let count = self.random.below(4) as i64;
            self.put_atoms(&[Atom::Number(count)]);
        } else {
            self.put(9, name + 65536 * (depth - 1));
        }
        self.bind(name, depth, 1);
        Atom::Name(name)
    }

    /// Raises what a line hands over and reads, so far as it must hold more, and counts what is handed over as spent.
    fn ready(&mut self, handed: &[Atom], read: &[Atom]) {
        for atom in handed {
            let Atom::Name(name) = *atom else { continue };
            if self.depths[name].unwrap_or(0) == 0 {
                continue;
            }
            let floor = if self.holds[name] > 1 && self.random.once_in(6) { 1 } else { self.floors[name] };
            if (self.holds[name] <= floor || self.random.once_in(3)) && !self.slip() {
                self.put(14, name);
                self.holds[name] += 1;
            }
            self.holds[name] = self.holds[name].saturating_sub(1);
        }
        for atom in read {
            let Atom::Name(name) = *atom else { continue };
            let is_array = self.depths[name].unwrap_or(0) > 0;
            if is_array && self.holds[name] == 0 && !self.lent[name] && !self.slip() {
                self.put(14, name);
                self.holds[name] += 1;
            }
        }
    }

    // ---- Lines ----

    fn line(&mut self, level: usize) {
        let with_trees = if level < 5 { 17 } else { 10 };
        match self.random.below(with_trees) {
            0 => self.plain(4, 0, &[0, 0], 0),
            1 => self.plain(11, 0, &[1], 0),
            2 | 3 => self.index(),
            4 => self.literal(),
            5 => {
                let of = if self.slip() { 4 } else { self.random.below(3) };
                self.plain(18, 0, &[0, of], of + 1);
            }
            6 | 7 => self.call(),
            8 | 9 => self.raise_or_drop(),
            10 | 11 => self.choice(level),
            _ => self.passes(level),
        }
    }

    /// A line that reads its atoms.
    fn plain(&mut self, kind: u8, above: usize, atoms: &[usize], depth: usize) {
        let atoms: Vec<Atom> = atoms.iter().map(|depth| self.read_atom(*depth)).collect();
        self.ready(&[], &atoms);
        let name = self.new_name();
        self.put(kind, name + above);
        self.put_atoms(&atoms);
        self.bind(name, depth, 1);
    }

    /// An index, whose result is raised straight after or never.
    fn index(&mut self) {
        let depth = self.random.below(3);
        let array = self.read_atom(depth + 1);
        self.ready(&[], &[array]);
        let name = self.new_name();
        let position = self.random.below(2) as i64;
        self.put(10, name);
        self.put_atoms(&[array, Atom::Number(position)]);
        self.bind(name, depth, 0);
        if depth > 0 && !self.random.once_in(8) {
            self.put(14, name);
            self.holds[name] = 1;
        }
    }

    fn literal(&mut self) {
        let depth = self.random.below(3);
        let atoms: Vec<Atom> = (0..self.random.below(4)).map(|_| self.atom(depth)).collect();
        self.ready(&atoms, &[]);
        let name = self.new_name();
        self.put(9, name + 256 * atoms.len() + 65536 * depth);
        self.put_atoms(&atoms);
        self.bind(name, depth + 1, 1);
    }

    fn call(&mut self) {
        let function = self.random.below(self.signatures.len());
        let Signature { parameters, depth } = self.signatures[function].clone();
        let (mut atoms, mut handed, mut read) = (Vec::new(), Vec::new(), Vec::new());
        for (depth, is_owned) in parameters {
            let atom = if is_owned { self.atom(depth) } else { self.read_atom(depth) };
            atoms.push(atom);
            if is_owned { &mut handed } else { &mut read }.push(atom);
        }
        self.ready(&handed, &read);
        let name = self.new_name();
        self.put(8, name + 256 * function);
        self.put_atoms(&atoms);
        self.bind(name, depth, 1);
    }

    fn raise_or_drop(&mut self) {
        let held: Vec<usize> = self.in_scope().into_iter().filter(|name| self.holds[*name] > 0).collect();
        if held.is_empty() {
            return;
        }
        let name = *self.random.pick(&held);
        if self.random.once_in(3) {
            self.put(14, name);
            self.holds[name] += 1;
        } else if self.holds[name] > self.floors[name] || self.slip() {
            self.put(15, name);
            self.holds[name] -= 1;
        }
    }

    /// An if, whose branches leave the same holds.
    fn choice(&mut self, level: usize) {
        let depth = self.random.below(3);
        let guard = if self.random.once_in(3) { self.read_atom(0) } else { Atom::Number(self.random.below(2) as i64) };
        let name = self.new_name();
        self.put(12, name);
        self.put_atoms(&[guard]);
        let before = self.holds;
        self.tree(depth, level + 1, &[], None);
        let after = std::mem::replace(&mut self.holds, before);
        let floors = self.floors;
        for name in self.in_scope() {
            self.floors[name] = floors[name].max(after[name]);
        }
        self.tree(depth, level + 1, &[], Some(after));
        self.floors = floors;
        self.bind(name, depth, 1);
    }

    /// A map, filter, reduce or map in the same cell.
    fn passes(&mut self, level: usize) {
        let kind = *self.random.pick(&[13, 13, 19, 20, 20, 21]);
        let element = if kind == 21 { 0 } else { self.random.below(3) };
        let start = if kind == 20 { Some(self.random.below(3)) } else { None };
        let array = if kind == 21 { self.atom(1) } else { self.read_atom(element + 1) };
        let mapped = if self.slip() { 4 } else { self.random.below(3) };
        let (body, depth) = match kind {
            13 => (mapped, mapped + 1),
            19 => (0, element + 1),
            20 => (start.unwrap(), start.unwrap()),
            _ => (0, 1),
        };
        let started: Vec<Atom> = start.iter().map(|depth| self.atom(*depth)).collect();
        if kind == 21 {
            self.ready(&[array], &[]);
        } else {
            self.ready(&started, &[array]);
        }
        let (name, first, second) = (self.new_name(), self.new_name(), self.new_name());
        if kind == 20 {
            self.put(20, name + 256 * first + 65536 * second);
        } else {
            self.put(kind, name + 256 * second);
        }
        self.put_atoms(&started);
        self.put_atoms(&[array]);
        let (holds, floors) = (self.holds, self.floors);
        self.floors = holds;
        let mut inside = vec![second];
        self.bind(second, element, 0);
        if let Some(depth) = start {
            self.bind(first, depth, 1);
            inside.push(first);
        }
        if element > 0 && !self.random.once_in(8) {
            self.put(14, second);
            self.holds[second] = 1;
        }
        self.tree(body, level + 1, &inside, Some(holds));
        self.floors = floors;
        self.bind(name, depth, 1);
    }
}
