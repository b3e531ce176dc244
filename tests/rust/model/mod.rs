//! A second implementation of the eight calls, written from documents 01 and 02 alone: trees on the heap, no proof.

pub mod annotate;
pub mod borrow;
pub mod code;
pub mod lent;
pub mod machine;
pub mod names;
pub mod rules;
pub mod saved;
pub mod script;
pub mod store;

use code::Coded;
use script::Refusal;
use store::{cells_of, Store};

/// What is lent to a call.
#[derive(Clone, PartialEq, Eq, Debug)]
pub struct Lent {
    pub kinds: Vec<u8>,
    pub operands: Vec<i64>,
    pub slots: Vec<i64>,
    pub heads: Vec<u32>,
}

pub fn pack(number: u64, node: u64, count: u64, cells: u64) -> u64 {
    number + (node << 8) + (count << 24) + (cells << 48)
}

/// An answer without a node.
fn plain(number: u64, count: u64, cells: u64) -> u64 {
    pack(number, 0, count, cells)
}

/// Refuses: the code arrays are zero, the store stays.
fn refuse(lent: &mut Lent, refusal: Refusal) -> u64 {
    lent.kinds.fill(0);
    lent.operands.fill(0);
    pack(refusal.number, refusal.node as u64, 0, 0)
}

fn refuse_with(lent: &mut Lent, number: u64) -> u64 {
    refuse(lent, Refusal { number, node: 0 })
}

/// The code of a file, also written to the lent arrays, or the refusal 1 to 9.
fn load(file: &[u8], lent: &mut Lent) -> Result<(Vec<Coded>, usize), u64> {
    let functions = match rules::judge(file) {
        Ok(functions) => functions,
        Err(refusal) => return Err(refuse(lent, refusal)),
    };
    let coded = code::translate(&functions);
    let rows = code::rows(&coded);
    if rows.len() > lent.kinds.len().min(lent.operands.len()).min(4096) {
        return Err(refuse_with(lent, 9));
    }
    lent.kinds.fill(0);
    lent.operands.fill(0);
    for (i, (kind, operand)) in rows.iter().enumerate() {
        lent.kinds[i] = *kind;
        lent.operands[i] = *operand;
    }
    Ok((coded, rows.len()))
}

pub fn translate(file: &[u8], lent: &mut Lent) -> u64 {
    match load(file, lent) {
        Ok((_, lines)) => plain(0, lines as u64, 0),
        Err(answer) => answer,
    }
}

pub fn open(file: &[u8], lent: &mut Lent) -> u64 {
    let coded = match load(file, lent) {
        Ok((coded, _)) => coded,
        Err(answer) => return answer,
    };
    let Some(cells) = cells_of(&lent.slots, &lent.heads) else {
        return refuse_with(lent, 11);
    };
    let store = Store::opened(cells, coded[0].depth);
    keep(lent, &store);
    plain(0, 0, store.taken() as u64)
}

pub fn check(file: &[u8], lent: &mut Lent) -> u64 {
    let coded = match load(file, lent) {
        Ok((coded, _)) => coded,
        Err(answer) => return answer,
    };
    match Store::from_words(&lent.slots, &lent.heads) {
        Some(store) if store.is_sound(coded[0].depth) => pack(0, 0, 0, store.taken() as u64),
        _ => refuse_with(lent, 11),
    }
}

pub fn deliver(file: &[u8], lent: &mut Lent, readings: &[i64], budget: u64) -> u64 {
    let coded = match load(file, lent) {
        Ok((coded, _)) => coded,
        Err(answer) => return answer,
    };
    if readings.len() > 16 || budget > 1_000_000 {
        return refuse_with(lent, 10);
    }
    let mut store = match Store::from_words(&lent.slots, &lent.heads) {
        Some(store) if store.is_sound(coded[0].depth) => store,
        _ => return refuse_with(lent, 11),
    };
    work(&coded, lent, &mut store, readings, budget)
}

fn work(coded: &[Coded], lent: &mut Lent, store: &mut Store, readings: &[i64], budget: u64) -> u64 {
    let ended = machine::deliver(coded, store, readings, budget);
    keep(lent, store);
    pack(ended.number, ended.lowest, ended.steps, store.taken() as u64)
}

/// Saves the totals in a buffer, which is zero where they are not and after a refusal.
pub fn save(file: &[u8], lent: &mut Lent, buffer: &mut [u8]) -> u64 {
    buffer.fill(0);
    let coded = match load(file, lent) {
        Ok((coded, _)) => coded,
        Err(answer) => return answer,
    };
    let store = match Store::from_words(&lent.slots, &lent.heads) {
        Some(store) if store.is_sound(coded[0].depth) => store,
        _ => return refuse_with(lent, 11),
    };
    match saved::bytes_of(&store, coded[0].depth) {
        Some(bytes) if bytes.len() <= buffer.len() => buffer[..bytes.len()].copy_from_slice(&bytes),
        _ => return refuse_with(lent, 27),
    }
    plain(0, 0, store.taken() as u64)
}

/// Opens a store with saved totals; where cells run out it is zero.
pub fn restore(file: &[u8], lent: &mut Lent, bytes: &[u8]) -> u64 {
    let coded = match load(file, lent) {
        Ok((coded, _)) => coded,
        Err(answer) => return answer,
    };
    let Some(cells) = cells_of(&lent.slots, &lent.heads) else {
        return refuse_with(lent, 11);
    };
    let Some(value) = saved::value_in(bytes, coded[0].depth) else {
        return refuse_with(lent, 27);
    };
    let Some(store) = saved::restored(cells, &value, coded[0].depth) else {
        lent.slots.fill(0);
        lent.heads.fill(0);
        return plain(25, 0, 0);
    };
    keep(lent, &store);
    plain(0, 0, store.taken() as u64)
}

/// Checks lent code: its lines, or the line at fault.
pub fn check_code(lent: &Lent, depth: u64) -> u64 {
    match lent::judge(&lent.kinds, &lent.operands, depth) {
        Ok((_, lines)) => plain(0, lines as u64, 0),
        Err(fault) => pack(29, fault.line() as u64, 0, 0),
    }
}

/// A delivery by lent code. Refusals leave all that is lent.
pub fn deliver_code(lent: &mut Lent, depth: u64, readings: &[i64], budget: u64) -> u64 {
    let coded = match lent::judge(&lent.kinds, &lent.operands, depth) {
        Ok((coded, _)) => coded,
        Err(fault) => return pack(29, fault.line() as u64, 0, 0),
    };
    if readings.len() > 16 || budget > 1_000_000 {
        return plain(10, 0, 0);
    }
    match Store::from_words(&lent.slots, &lent.heads) {
        Some(mut store) if store.is_sound(depth as usize) => work(&coded, lent, &mut store, readings, budget),
        _ => plain(11, 0, 0),
    }
}

fn keep(lent: &mut Lent, store: &Store) {
    lent.slots = store.slot_words();
    lent.heads = store.head_words();
}
