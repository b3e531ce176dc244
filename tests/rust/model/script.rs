//! The script file as a tree, and refusals 1 to 5.

pub const FUNCTIONS_MAX: usize = 32;
pub const NODES_MAX: usize = 1024;
pub const LEVELS_MAX: usize = 64;

#[derive(Clone, Copy, PartialEq, Eq, Debug)]
pub enum Arithmetic {
    Sum,
    Difference,
    Less,
}

/// A node whose last part is worked once for each element of an array. A rewriting map stands in code only: in a script
/// it is a map.
#[derive(Clone, Copy, PartialEq, Eq, Debug)]
pub enum Loop {
    Map,
    Filter,
    Reduce,
    Rewriting,
}

/// A node of a function's body, with its number in the file.
#[derive(Clone, Debug)]
pub struct Node {
    pub at: usize,
    pub form: Form,
}

#[derive(Clone, Debug)]
pub enum Form {
    Number(i64),
    Name(usize),
    Arithmetic(Arithmetic, Box<[Node; 2]>),
    Let(usize, Box<[Node; 2]>),
    Call(usize, Vec<Node>),
    Literal(usize, Vec<Node>),
    Index(Box<[Node; 2]>),
    Length(Box<Node>),
    Iota(Box<Node>),
    Replicate(Box<[Node; 2]>),
    If(Box<[Node; 3]>),
    /// with the names of a pass and, after the other parts, the body
    Loop(Loop, Vec<usize>, Vec<Node>),
}

impl Form {
    /// All parts, in order. Names that it binds reach the last alone.
    pub fn parts(&self) -> &[Node] {
        match self {
            Form::Number(_) | Form::Name(_) => &[],
            Form::Length(part) | Form::Iota(part) => std::slice::from_ref(part),
            Form::Arithmetic(_, parts) | Form::Let(_, parts) | Form::Index(parts) | Form::Replicate(parts) => {
                parts.as_slice()
            }
            Form::If(parts) => parts.as_slice(),
            Form::Call(_, parts) | Form::Literal(_, parts) | Form::Loop(_, _, parts) => parts,
        }
    }
}

#[derive(Clone, Debug)]
pub struct Parameter {
    pub at: usize,
    pub name: usize,
    pub depth: usize,
}

#[derive(Clone, Debug)]
pub struct Function {
    pub at: usize,
    pub parameters: Vec<Parameter>,
    pub depth: usize,
    pub body: Node,
}

/// A refusal's number and node.
#[derive(Clone, PartialEq, Eq, Debug)]
pub struct Refusal {
    pub number: u64,
    pub node: usize,
}

pub fn refusal(number: u64, node: usize) -> Refusal {
    Refusal { number, node }
}

// ---- Reading ----

/// The tree of a file, or its refusal 1 to 5.
pub fn read(file: &[u8]) -> Result<Vec<Function>, Refusal> {
    if file.len() < 4 {
        return Err(refusal(1, 0));
    }
    let count = usize::from(file[0]) + 256 * usize::from(file[1]);
    let nodes = usize::from(file[2]) + 256 * usize::from(file[3]);
    if count == 0 || count > FUNCTIONS_MAX || nodes == 0 || nodes > NODES_MAX {
        return Err(refusal(2, 0));
    }
    if file.len() != 4 + 9 * nodes {
        return Err(refusal(1, 0));
    }
    let (kinds, operands) = file[4..].split_at(nodes);
    let rows = kinds
        .iter()
        .zip(operands.chunks_exact(8))
        .map(|(kind, bytes)| (*kind, i64::from_le_bytes(bytes.try_into().unwrap())))
        .collect();
    let mut reader = Reader { rows, at: 0 };
    let functions = (0..count).map(|_| reader.function()).collect::<Result<Vec<_>, _>>()?;
    if reader.at < nodes {
        return Err(refusal(3, reader.at));
    }
    Ok(functions)
}

struct Reader {
    rows: Vec<(u8, i64)>,
    at: usize,
}

/// The kinds that a part may have.
const PARTS: [u8; 16] = [2, 3, 4, 5, 6, 7, 8, 9, 10, 11, 12, 13, 17, 18, 19, 20];

/// An operand as `low + 256 * high`, if both are in range.
fn halves(operand: i64, low_max: i64, high_max: i64) -> Option<(usize, usize)> {
    let (low, high) = (operand.rem_euclid(256), operand.div_euclid(256));
    (operand >= 0 && low <= low_max && high <= high_max).then_some((low as usize, high as usize))
}

impl Reader {
    /// The node at hand: its kind must be allowed, its operand in range.
    fn row(&self, allowed: &[u8]) -> Result<(u8, i64, (usize, usize)), Refusal> {
        let Some(&(kind, operand)) = self.rows.get(self.at) else {
            return Err(refusal(3, self.rows.len()));
        };
        if !allowed.contains(&kind) {
            return Err(refusal(3, self.at));
        }
        let parts = match kind {
            0 => halves(operand, 8, 4),
            1 => halves(operand, 255, 4),
            2 => Some((0, 0)),
            3 | 7 | 13 | 19 => halves(operand, 255, 0),
            8 => halves(operand, 31, 8),
            9 => halves(operand, 16, 3),
            20 => halves(operand, 255, 255),
            _ => halves(operand, 0, 0),
        };
        parts.map(|parts| (kind, operand, parts)).ok_or_else(|| refusal(4, self.at))
    }

    fn function(&mut self) -> Result<Function, Refusal> {
        let (_, _, (count, depth)) = self.row(&[0])?;
        let at = self.at;
        self.at += 1;
        let mut parameters = Vec::new();
        for _ in 0..count {
            let (_, _, (name, depth)) = self.row(&[1])?;
            parameters.push(Parameter { at: self.at, name, depth });
            self.at += 1;
        }
        let body = self.node(1)?;
        Ok(Function { at, parameters, depth, body })
    }

    fn node(&mut self, level: usize) -> Result<Node, Refusal> {
        let (kind, operand, (low, high)) = self.row(&PARTS)?;
        let at = self.at;
        if level > LEVELS_MAX {
            return Err(refusal(5, at));
        }
        self.at += 1;
        let count = match kind {
            2 | 3 => 0,
            8 => high,
            9 => low,
            11 | 17 => 1,
            12 | 20 => 3,
            _ => 2,
        };
        let mut parts = (0..count).map(|_| self.node(level + 1)).collect::<Result<Vec<_>, _>>()?;
        let form = match kind {
            2 => Form::Number(operand),
            3 => Form::Name(low),
            4 => Form::Arithmetic(Arithmetic::Sum, boxed(parts)),
            5 => Form::Arithmetic(Arithmetic::Difference, boxed(parts)),
            6 => Form::Arithmetic(Arithmetic::Less, boxed(parts)),
            7 => Form::Let(low, boxed(parts)),
            8 => Form::Call(low, parts),
            9 => Form::Literal(high, parts),
            10 => Form::Index(boxed(parts)),
            11 => Form::Length(Box::new(parts.remove(0))),
            12 => Form::If(boxed(parts)),
            13 => Form::Loop(Loop::Map, vec![low], parts),
            17 => Form::Iota(Box::new(parts.remove(0))),
            18 => Form::Replicate(boxed(parts)),
            19 => Form::Loop(Loop::Filter, vec![low], parts),
            _ => Form::Loop(Loop::Reduce, vec![low, high], parts),
        };
        Ok(Node { at, form })
    }
}

fn boxed<const N: usize>(parts: Vec<Node>) -> Box<[Node; N]> {
    Box::new(parts.try_into().unwrap())
}
