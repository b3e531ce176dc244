//! The rules of names and depths: refusals 6 to 8 over a script that was read.

use super::script::{read, refusal, Form, Function, Loop, Node, Refusal};
use std::collections::BTreeSet;

pub const NEW_NAMES_MAX: usize = 256;
pub const DEPTH_MAX: usize = 4;

/// The script of a file, or its refusal 1 to 8.
pub fn judge(file: &[u8]) -> Result<Vec<Function>, Refusal> {
    let functions = read(file)?;
    if let Some(lowest) = name_faults(&functions).first() {
        return Err(refusal(6, *lowest));
    }
    if let Some(lowest) = type_faults(&functions).first() {
        return Err(refusal(7, *lowest));
    }
    for function in &functions {
        if function.parameters.len() + new_names(&function.body) > NEW_NAMES_MAX {
            return Err(refusal(8, function.at));
        }
    }
    Ok(functions)
}

// ---- Names: refusal 6 ----

/// What each of the 256 names is bound to, where it is known.
type Scope<T> = [Option<T>; 256];

/// A scope with more names, of which a later one hides an earlier.
fn bound<T: Clone>(scope: &Scope<T>, names: &[usize], to: &[T]) -> Scope<T> {
    let mut inner = scope.clone();
    for (name, to) in names.iter().zip(to) {
        inner[*name] = Some(to.clone());
    }
    inner
}

fn name_faults(functions: &[Function]) -> BTreeSet<usize> {
    let mut faults = BTreeSet::new();
    for function in functions {
        let mut scope: Scope<()> = [None; 256];
        for parameter in &function.parameters {
            if scope[parameter.name].replace(()).is_some() {
                faults.insert(parameter.at);
            }
        }
        names_in(&function.body, &scope, functions.len(), &mut faults);
    }
    faults
}

fn names_in(node: &Node, scope: &Scope<()>, functions: usize, faults: &mut BTreeSet<usize>) {
    let (is_known, names): (bool, &[usize]) = match &node.form {
        Form::Name(name) => (scope[*name].is_some(), &[]),
        Form::Call(function, _) => (*function < functions, &[]),
        Form::Let(name, _) => (true, std::slice::from_ref(name)),
        Form::Loop(_, names, _) => (true, names),
        _ => (true, &[]),
    };
    if !is_known {
        faults.insert(node.at);
    }
    let Some((last, before)) = node.form.parts().split_last() else { return };
    before.iter().for_each(|part| names_in(part, scope, functions, faults));
    names_in(last, &bound(scope, names, &[(), ()]), functions, faults);
}

// ---- Depths: refusal 7 ----

/// Functions as seen by a call, and the nodes found that break the rule.
struct Depths<'a> {
    functions: &'a [Function],
    faults: BTreeSet<usize>,
}

fn type_faults(functions: &[Function]) -> BTreeSet<usize> {
    let mut depths = Depths { functions, faults: BTreeSet::new() };
    let main = &functions[0];
    let shape: Vec<usize> = main.parameters.iter().map(|parameter| parameter.depth).collect();
    if shape != [main.depth, 1] {
        depths.faults.insert(main.at);
    }
    for function in functions {
        let mut scope: Scope<Option<usize>> = [None; 256];
        for parameter in &function.parameters {
            scope[parameter.name] = Some(Some(parameter.depth));
        }
        if depths.of(&function.body, &scope).is_some_and(|depth| depth != function.depth) {
            depths.faults.insert(function.at);
        }
    }
    depths.faults
}

impl Depths<'_> {
    /// The depth of a node, or none where it or a part of it breaks the rule.
    fn of(&mut self, node: &Node, scope: &Scope<Option<usize>>) -> Option<usize> {
        match &node.form {
            Form::Number(_) => Some(0),
            Form::Name(name) => scope[*name].flatten(),
            Form::Arithmetic(_, parts) => {
                let depths = self.all(parts.as_slice(), scope)?;
                self.expect(node, depths == [0, 0], 0)
            }
            Form::Let(name, parts) => {
                let first = self.of(&parts[0], scope);
                let second = self.of(&parts[1], &bound(scope, &[*name], &[first]));
                first.and(second)
            }
            Form::Call(function, parts) => {
                let depths = self.all(parts, scope)?;
                let callee = &self.functions[*function];
                let wanted: Vec<usize> = callee.parameters.iter().map(|parameter| parameter.depth).collect();
                self.expect(node, depths == wanted, callee.depth)
            }
            Form::Literal(depth, parts) => {
                let depths = self.all(parts, scope)?;
                self.expect(node, depths.iter().all(|found| found == depth), depth + 1)
            }
            Form::Index(parts) => {
                let depths = self.all(parts.as_slice(), scope)?;
                self.expect(node, depths[0] > 0 && depths[1] == 0, depths[0].saturating_sub(1))
            }
            Form::Length(part) => {
                let depth = self.of(part, scope)?;
                self.expect(node, depth > 0, 0)
            }
            Form::If(parts) => {
                let depths = self.all(parts.as_slice(), scope)?;
                self.expect(node, depths[0] == 0 && depths[1] == depths[2], depths[1])
            }
            Form::Iota(part) => {
                let depth = self.of(part, scope)?;
                self.expect(node, depth == 0, 1)
            }
            Form::Replicate(parts) => {
                let depths = self.all(parts.as_slice(), scope)?;
                self.expect(node, depths[0] == 0 && depths[1] < DEPTH_MAX, depths[1] + 1)
            }
            Form::Loop(kind, names, parts) => self.of_loop(node, *kind, names, parts, scope),
        }
    }

    /// A loop whose parts before its body have depths, and whose array is a number, breaks the rule whatever its body.
    fn of_loop(
        &mut self,
        node: &Node,
        kind: Loop,
        names: &[usize],
        parts: &[Node],
        scope: &Scope<Option<usize>>,
    ) -> Option<usize> {
        let (body, before) = parts.split_last().unwrap();
        let depths: Vec<Option<usize>> = before.iter().map(|part| self.of(part, scope)).collect();
        let mut in_pass = depths.clone(); // a reduce's start, and an element in the array's place
        *in_pass.last_mut().unwrap() = depths[depths.len() - 1].and_then(|depth| depth.checked_sub(1));
        let body = self.of(body, &bound(scope, names, &in_pass));
        let depths = depths.into_iter().collect::<Option<Vec<usize>>>()?;
        let array = depths[depths.len() - 1];
        if array == 0 {
            return self.expect(node, false, 0);
        }
        let body = body?;
        match kind {
            Loop::Map | Loop::Rewriting => self.expect(node, body < DEPTH_MAX, body + 1),
            Loop::Filter => self.expect(node, body == 0, array),
            Loop::Reduce => self.expect(node, body == depths[0], body),
        }
    }

    /// The depths of all parts; each part is looked at, also past one without depth.
    fn all(&mut self, parts: &[Node], scope: &Scope<Option<usize>>) -> Option<Vec<usize>> {
        let depths: Vec<Option<usize>> = parts.iter().map(|part| self.of(part, scope)).collect();
        depths.into_iter().collect()
    }

    fn expect(&mut self, node: &Node, holds: bool, depth: usize) -> Option<usize> {
        if !holds {
            self.faults.insert(node.at);
        }
        holds.then_some(depth)
    }
}

// ---- New names: refusal 8 ----

fn new_names(node: &Node) -> usize {
    let own = match &node.form {
        Form::Number(_) | Form::Name(_) | Form::Let(..) => 0,
        Form::Loop(_, names, _) => 1 + names.len(),
        _ => 1,
    };
    own + node.form.parts().iter().map(new_names).sum::<usize>()
}
