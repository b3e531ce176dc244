//! What lent code means with raises and drops ignored: it is worked where no cell ever runs out or is used again.

use super::judge;
use crate::model::code::{Coded, Line, Tree};
use crate::model::machine;
use crate::model::saved;
use crate::model::script::Loop;
use crate::model::store::Store;
use crate::model::Lent;

/// A tree without raises and drops, in which every map makes a new array.
fn bare(tree: &Tree) -> Tree {
    let lines = tree.lines.iter().filter_map(|line| match line {
        Line::Retain(_) | Line::Release(_) => None,
        Line::Plain(..) => Some(line.clone()),
        Line::If(name, guard, first, second) => Some(Line::If(*name, *guard, bare(first), bare(second))),
        Line::Loop(name, kind, in_pass, atoms, tree) => {
            let kind = if *kind == Loop::Rewriting { Loop::Map } else { *kind };
            Some(Line::Loop(*name, kind, in_pass.clone(), atoms.clone(), bare(tree)))
        }
    });
    Tree { lines: lines.collect(), end: tree.end }
}

/// The value of a store's totals, as they are saved; none where it has too many entries.
pub fn totals(store: &Store, depth: usize) -> Option<Vec<u8>> {
    saved::bytes_of(store, depth)
}

/// The number and steps of a delivery by accepted code to a sound store, and the totals after it. None where they are
/// too large to be worked out.
pub fn deliver(lent: &Lent, depth: u64, readings: &[i64], budget: u64) -> Option<(u64, u64, Option<Vec<u8>>)> {
    let (functions, _) = judge(&lent.kinds, &lent.operands, depth).ok()?;
    let bare: Vec<Coded> = functions.iter().map(|coded| Coded { tree: bare(&coded.tree), ..coded.clone() }).collect();
    let depth = depth as usize;
    let before = totals(&Store::from_words(&lent.slots, &lent.heads)?, depth)?;
    let value = saved::value_in(&before, depth)?;
    let cells = before.len() / 9 + 2 + budget.min(5000) as usize; // a step takes one at most, and so do the readings
    let mut store = saved::restored(cells, &value, depth)?;
    let ended = machine::deliver(&bare, &mut store, readings, budget);
    (ended.number != 25).then(|| (ended.number, ended.steps, totals(&store, depth)))
}
