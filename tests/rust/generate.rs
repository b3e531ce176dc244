//! Scripts made at random: typed ones, that the engine accepts unless they are too large, and damaged ones.

use crate::random::Random;

/// How a script is to be.
#[derive(Clone, Copy)]
pub struct Shape {
    pub functions: usize,
    /// nodes of a function, about
    pub nodes: usize,
    /// deep and thin rather than flat and broad
    pub spine: bool,
    /// the level from which on there are leaves only; above 64 the script may be refused
    pub levels: usize,
    /// some maps and replicates have elements of depth 4, which no array may have
    pub faulty: bool,
}

struct Signature {
    parameters: Vec<usize>,
    depth: usize,
}

struct Generator<'a> {
    random: &'a mut Random,
    signatures: Vec<Signature>,
    nodes: Vec<(u8, i64)>,
    shape: Shape,
    /// nodes that the present function may still have
    left: usize,
}

type Scope = Vec<(usize, usize)>;

/// A script file whose names are known and whose depths match.
pub fn script(random: &mut Random, shape: Shape) -> Vec<u8> {
    let depth = random.below(5);
    let mut signatures = vec![Signature { parameters: vec![depth, 1], depth }];
    for _ in 1..shape.functions {
        let count = random.below(9).min(random.below(9));
        let parameters = (0..count).map(|_| low_depth(random)).collect();
        signatures.push(Signature { parameters, depth: low_depth(random) });
    }
    let mut generator = Generator { random, signatures, nodes: Vec::new(), shape, left: 0 };
    for function in 0..shape.functions {
        generator.left = shape.nodes;
        generator.function(function);
    }
    file_of(shape.functions, &generator.nodes)
}

fn low_depth(random: &mut Random) -> usize {
    random.below(5).min(random.below(4))
}

/// The file of some nodes.
pub fn file_of(functions: usize, nodes: &[(u8, i64)]) -> Vec<u8> {
    let mut file = Vec::new();
    file.extend((functions as u16).to_le_bytes());
    file.extend((nodes.len() as u16).to_le_bytes());
    file.extend(nodes.iter().map(|(kind, _)| *kind));
    file.extend(nodes.iter().flat_map(|(_, operand)| operand.to_le_bytes()));
    file
}

impl Generator<'_> {
    fn put(&mut self, kind: u8, operand: usize) {
        self.nodes.push((kind, operand as i64));
        self.left = self.left.saturating_sub(1);
    }

    fn name(&mut self) -> usize {
        if self.random.once_in(8) {
            self.random.below(256)
        } else {
            self.random.below(6)
        }
    }

    fn function(&mut self, function: usize) {
        let (parameters, depth) = {
            let signature = &self.signatures[function];
            (signature.parameters.clone(), signature.depth)
        };
        self.put(0, parameters.len() + 256 * depth);
        let mut scope: Scope = Vec::new();
        for parameter in parameters {
            let mut name = self.name();
            while scope.iter().any(|(other, _)| *other == name) {
                name = (name + 1) % 256;
            }
            self.put(1, name + 256 * parameter);
            scope.push((name, parameter));
        }
        self.part(depth, 1, &scope);
    }

    /// A part that is worked before its node: thin where the script is a spine.
    fn side(&mut self, depth: usize, level: usize, scope: &Scope) {
        if self.shape.spine {
            self.leaf(depth, scope);
        } else {
            self.part(depth, level, scope);
        }
    }

    /// A number, a name in scope, or an empty literal.
    fn leaf(&mut self, depth: usize, scope: &Scope) {
        let visible = |(i, (name, _)): &(usize, &(usize, usize))| !scope[i + 1..].iter().any(|(n, _)| n == name);
        let names: Vec<usize> =
            scope.iter().enumerate().filter(visible).filter(|(_, (_, d))| *d == depth).map(|(_, (n, _))| *n).collect();
        if !names.is_empty() && !self.random.once_in(4) {
            let name = *self.random.pick(&names);
            self.put(3, name);
        } else if depth == 0 {
            let value = self.random.number();
            self.nodes.push((2, value));
            self.left = self.left.saturating_sub(1);
        } else {
            self.put(9, 256 * (depth - 1));
        }
    }

    fn part(&mut self, depth: usize, level: usize, scope: &Scope) {
        let stops = self.random.once_in(if self.shape.spine { 40 } else { 6 });
        if self.left == 0 || level >= self.shape.levels || stops {
            return self.leaf(depth, scope);
        }
        let next = level + 1;
        match self.random.below(10) {
            0 | 1 => self.bind(depth, next, scope),
            2 => self.call(depth, next, scope),
            3 | 4 => self.choose(depth, next, scope),
            5 if depth < 4 => self.index(depth, next, scope),
            6 => self.reduce(depth, next, scope),
            _ if depth > 0 => self.array(depth, next, scope),
            7 => {
                self.put(11, 0);
                if self.shape.faulty && self.random.once_in(4) {
                    return self.too_deep(next + 1, scope);
                }
                let of = 1 + low_depth(self.random).min(3);
                self.part(of, next, scope);
            }
            _ => {
                let kind = 4 + self.random.below(3) as u8;
                self.put(kind, 0);
                self.side(0, next, scope);
                self.part(0, next, scope);
            }
        }
    }

    fn bind(&mut self, depth: usize, level: usize, scope: &Scope) {
        let name = self.name();
        self.put(7, name);
        let bound = low_depth(self.random);
        self.side(bound, level, scope);
        let mut inner = scope.clone();
        inner.push((name, bound));
        self.part(depth, level, &inner);
    }

    fn call(&mut self, depth: usize, level: usize, scope: &Scope) {
        let fitting: Vec<usize> = (0..self.signatures.len()).filter(|f| self.signatures[*f].depth == depth).collect();
        if fitting.is_empty() {
            return self.leaf(depth, scope);
        }
        let function = *self.random.pick(&fitting);
        let parameters = self.signatures[function].parameters.clone();
        self.put(8, function + 256 * parameters.len());
        for parameter in parameters {
            self.side(parameter, level, scope);
        }
    }

    fn choose(&mut self, depth: usize, level: usize, scope: &Scope) {
        self.put(12, 0);
        self.guard(level, scope, false);
        if self.random.once_in(2) {
            self.side(depth, level, scope);
            self.part(depth, level, scope);
        } else {
            self.part(depth, level, scope);
            self.side(depth, level, scope);
        }
    }

    fn index(&mut self, depth: usize, level: usize, scope: &Scope) {
        self.put(10, 0);
        self.part(depth + 1, level, scope);
        if self.random.once_in(3) {
            self.side(0, level, scope);
        } else {
            let position = self.random.below(3).min(self.random.below(3));
            self.put(2, position);
        }
    }

    /// A node that makes an array.
    fn array(&mut self, depth: usize, level: usize, scope: &Scope) {
        match self.random.below(8) {
            0 if depth == 1 => {
                self.put(17, 0);
                self.count(level, scope);
            }
            0 | 1 => self.replicate(depth, level, scope),
            2 | 3 => self.filter(depth, level, scope),
            4 | 5 => self.map(depth, level, scope),
            _ => self.literal(depth, level, scope),
        }
    }

    /// An array of depth 5, which breaks the rule.
    fn too_deep(&mut self, level: usize, scope: &Scope) {
        if self.random.once_in(2) {
            self.map(5, level, scope);
        } else {
            self.replicate(5, level, scope);
        }
    }

    /// A count: mostly one that an array can have.
    fn count(&mut self, level: usize, scope: &Scope) {
        match self.random.below(8) {
            0 => self.side(0, level, scope),
            1 => {
                let count = 15 + self.random.below(3);
                self.put(2, count);
            }
            _ => {
                let count = self.random.below(5);
                self.put(2, count);
            }
        }
    }

    fn replicate(&mut self, depth: usize, level: usize, scope: &Scope) {
        self.put(18, 0);
        self.count(level, scope);
        self.part(depth - 1, level, scope);
    }

    fn map(&mut self, depth: usize, level: usize, scope: &Scope) {
        let name = self.name();
        self.put(13, name);
        let element = low_depth(self.random).min(3);
        self.side(element + 1, level, scope);
        let mut inner = scope.clone();
        inner.push((name, element));
        self.part(depth - 1, level, &inner);
    }

    fn filter(&mut self, depth: usize, level: usize, scope: &Scope) {
        let name = self.name();
        self.put(19, name);
        self.side(depth, level, scope);
        let mut inner = scope.clone();
        inner.push((name, depth - 1));
        self.guard(level, &inner, true);
    }

    /// A guard: mostly a comparison, at times 1 or 0, and at times any number. One that goes deep does so in its last
    /// part.
    fn guard(&mut self, level: usize, scope: &Scope, deep: bool) {
        let choice = self.random.below(8);
        if choice == 0 {
            return if deep { self.part(0, level, scope) } else { self.side(0, level, scope) };
        }
        if choice == 1 || level >= self.shape.levels {
            let answer = self.random.below(2);
            return self.put(2, answer);
        }
        self.put(6, 0);
        self.side(0, level + 1, scope);
        if deep {
            self.part(0, level + 1, scope);
        } else {
            self.side(0, level + 1, scope);
        }
    }

    /// A reduce; at times its two names are equal, and the second hides the first.
    fn reduce(&mut self, depth: usize, level: usize, scope: &Scope) {
        let first = self.name();
        let second = if self.random.once_in(5) { first } else { self.name() };
        self.put(20, first + 256 * second);
        self.side(depth, level, scope);
        let element = low_depth(self.random).min(3);
        self.side(element + 1, level, scope);
        let mut inner = scope.clone();
        inner.extend([(first, depth), (second, element)]);
        self.part(depth, level, &inner);
    }

    fn literal(&mut self, depth: usize, level: usize, scope: &Scope) {
        let length = if self.random.once_in(10) { self.random.below(17) } else { self.random.below(4) };
        self.put(9, length + 256 * (depth - 1));
        for i in 0..length {
            if i == 0 {
                self.part(depth - 1, level, scope);
            } else {
                self.side(depth - 1, level, scope);
            }
        }
    }
}

/// Changes the low or high part of an operand that has parts, mostly within its range: names, counts and depths.
fn damage_parts(random: &mut Random, file: &mut [u8], nodes: usize) {
    let with_parts: Vec<usize> =
        (0..nodes).filter(|node| [0, 1, 3, 7, 8, 9, 13, 19, 20].contains(&file[4 + node])).collect();
    if with_parts.is_empty() {
        return;
    }
    let operand = 4 + nodes + 8 * *random.pick(&with_parts);
    if random.once_in(2) {
        file[operand] = random.below(9) as u8;
    } else {
        file[operand + 1] = random.below(5) as u8;
    }
}

/// Damages a file in one or more places.
pub fn damage(random: &mut Random, file: &mut Vec<u8>) {
    for _ in 0..1 + random.below(3) {
        let length = file.len();
        if length < 13 {
            file.push(random.next() as u8);
            continue;
        }
        let nodes = (length - 4) / 9;
        let node = random.below(nodes);
        match random.below(12) {
            0 => file.truncate(random.below(length)),
            1 => file.push(random.next() as u8),
            2 => {
                let byte = random.below(4);
                file[byte] = file[byte].wrapping_add(1 + random.below(3) as u8);
            }
            3 => file[4 + node] = random.below(23) as u8,
            4 => file.swap(4 + node, 4 + random.below(nodes)),
            5 => file[4 + nodes + 8 * node + random.below(8)] = random.next() as u8,
            6 => {
                let byte = random.below(length);
                file[byte] ^= 1 << random.below(8);
            }
            _ => damage_parts(random, file, nodes),
        }
    }
}
