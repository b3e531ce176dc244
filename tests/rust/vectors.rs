//! The test vectors: cases of plain text, one file for each call, run by the engine and by the model.

use crate::codes;
use crate::compare::LEVEL_BITS;
use crate::engine;
use crate::model::{self, Lent};
use crate::swaps;

/// A case's lines, each as its key and its words.
pub type Case<'a> = Vec<(&'a str, Vec<&'a str>)>;

fn cases(text: &str) -> Vec<Case<'_>> {
    let mut cases: Vec<Case> = Vec::new();
    for line in text.lines() {
        let mut words = line.split_whitespace();
        let Some(key) = words.next() else { continue };
        if key == "case" {
            cases.push(Vec::new());
        }
        if let Some(case) = cases.last_mut() {
            case.push((key, words.collect()));
        }
    }
    cases
}

pub fn values<'a>(case: &'a Case, key: &str) -> Option<&'a [&'a str]> {
    case.iter().find(|(k, _)| *k == key).map(|(_, words)| words.as_slice())
}

pub fn number<T: std::str::FromStr>(word: &str) -> T {
    word.parse().unwrap_or_else(|_| panic!("{word} is no number of its place"))
}

pub fn file_bytes(case: &Case) -> Vec<u8> {
    let digits = values(case, "file").and_then(|words| words.first().copied()).unwrap_or("");
    (0..digits.len() / 2).map(|i| u8::from_str_radix(&digits[2 * i..2 * i + 2], 16).unwrap()).collect()
}

/// Code arrays that hold something else before a call.
pub fn code_arrays(lent: &mut Lent, words: &[&str]) {
    lent.kinds = vec![0xa5; number(words[0])];
    lent.operands = vec![-3; number(words[1])];
}

/// An array of some length from words INDEX=VALUE; all others are 0.
pub fn array<T: Default + Clone + std::str::FromStr>(length: usize, words: &[&str]) -> Vec<T> {
    let mut array = vec![T::default(); length];
    for word in words {
        let (index, value) = word.split_once('=').unwrap();
        array[number::<usize>(index)] = number(value);
    }
    array
}

pub fn empty() -> Lent {
    Lent { kinds: Vec::new(), operands: Vec::new(), slots: Vec::new(), heads: Vec::new() }
}

/// The answer that a case asks for. Cases from before order 3 have other faulty nodes beside it; its own is the lowest.
fn expected(case: &Case) -> u64 {
    number(values(case, "answer").unwrap()[0])
}

/// One of the two that are tested.
pub struct Calls {
    pub translate: fn(&[u8], &mut Lent) -> u64,
    pub open: fn(&[u8], &mut Lent) -> u64,
    pub check: fn(&[u8], &mut Lent) -> u64,
    pub deliver: fn(&[u8], &mut Lent, &[i64], u64) -> u64,
    pub save: fn(&[u8], &mut Lent, &mut [u8]) -> u64,
    pub restore: fn(&[u8], &mut Lent, &[u8]) -> u64,
    pub check_code: fn(&Lent, u64) -> u64,
    pub deliver_code: fn(&mut Lent, u64, &[i64], u64) -> u64,
}

const ENGINE: Calls = Calls {
    translate: engine::translate,
    open: engine::open,
    check: engine::check,
    deliver: engine::deliver,
    save: engine::save,
    restore: engine::restore,
    check_code: engine::check_code,
    deliver_code: engine::deliver_code,
};

const MODEL: Calls = Calls {
    translate: model::translate,
    open: model::open,
    check: model::check,
    deliver: model::deliver,
    save: model::save,
    restore: model::restore,
    check_code: model::check_code,
    deliver_code: model::deliver_code,
};

fn translate_case(case: &Case, calls: &Calls) -> bool {
    let file = file_bytes(case);
    let mut lent = empty();
    code_arrays(&mut lent, values(case, "arrays").unwrap());
    let answer = (calls.translate)(&file, &mut lent);
    let at = case.iter().position(|(key, _)| *key == "rows").unwrap();
    let rows = &case[at + 1..at + 1 + number::<usize>(case[at].1[0])];
    let mut kinds = vec![0u8; lent.kinds.len()];
    let mut operands = vec![0i64; lent.operands.len()];
    for (i, (kind, operand)) in rows.iter().enumerate() {
        kinds[i] = number(kind);
        operands[i] = number(operand[0]);
    }
    answer == expected(case) && lent.kinds == kinds && lent.operands == operands
}

fn check_case(case: &Case, calls: &Calls) -> bool {
    let mut lent = empty();
    code_arrays(&mut lent, values(case, "arrays").unwrap());
    let (slots, heads) = (values(case, "slots").unwrap(), values(case, "heads").unwrap());
    lent.slots = array(number(slots[0]), &slots[1..]);
    lent.heads = array(number(heads[0]), &heads[1..]);
    let before = (lent.slots.clone(), lent.heads.clone());
    let answer = (calls.check)(&file_bytes(case), &mut lent);
    answer == expected(case) && before == (lent.slots, lent.heads)
}

/// The deliveries of the base and of order 1 were written before an answer had the lowest level: those that are not
/// refused agree in all but its place.
fn lacks_lowest(path: &str) -> bool {
    path.ends_with("/deliver.txt") || path.ends_with("/deliver_1.txt")
}

fn is_delivered(answer: u64, wanted: u64, without_lowest: bool) -> bool {
    let is_refused = (1..=11).contains(&(wanted & 0xff));
    let left_out = if without_lowest && !is_refused { LEVEL_BITS } else { 0 };
    answer & !left_out == wanted & !left_out
}

fn deliver_case(case: &Case, calls: &Calls, without_lowest: bool) -> bool {
    let file = file_bytes(case);
    let cells: usize = number(values(case, "cells").unwrap()[0]);
    let mut lent = empty();
    lent.slots = vec![7; 1 + 16 * cells];
    lent.heads = vec![7; 1 + 4 * cells];
    let mut agrees = true;
    for (key, words) in case.iter().filter(|(key, _)| *key == "open" || *key == "deliver") {
        code_arrays(&mut lent, words);
        if *key == "open" {
            agrees &= (calls.open)(&file, &mut lent) == number::<u64>(words[2]);
        } else {
            let readings: Vec<i64> = words[4..].iter().map(|word| number(word)).collect();
            let answer = (calls.deliver)(&file, &mut lent, &readings, number(words[2]));
            agrees &= is_delivered(answer, number(words[3]), without_lowest);
        }
    }
    let slots = array::<i64>(lent.slots.len(), values(case, "slots").unwrap());
    let heads = array::<u32>(lent.heads.len(), values(case, "heads").unwrap());
    agrees && lent.slots == slots && lent.heads == heads
}

fn agrees(case: &Case, calls: &Calls, without_lowest: bool) -> bool {
    if values(case, "depth").is_some() {
        codes::code_case(case, calls)
    } else if values(case, "rows").is_some() {
        translate_case(case, calls)
    } else if values(case, "store").is_some() {
        swaps::swap_case(case, calls)
    } else if values(case, "cells").is_some() {
        deliver_case(case, calls, without_lowest)
    } else {
        check_case(case, calls)
    }
}

/// Runs the cases of a file; says whether all agree.
pub fn run(path: &str) -> bool {
    let text = std::fs::read_to_string(path).unwrap_or_else(|error| panic!("{path}: {error}"));
    let cases = cases(&text);
    let differ = |calls: &Calls| -> Vec<&str> {
        cases.iter().filter(|case| !agrees(case, calls, lacks_lowest(path))).map(|case| case[0].1[0]).collect()
    };
    let (engine, model) = (differ(&ENGINE), differ(&MODEL));
    println!("{path}: {} cases, {} differ ({} of the model)", cases.len(), engine.len(), model.len());
    for name in engine.iter().chain(&model).take(8) {
        println!("  {name}");
    }
    !cases.is_empty() && engine.is_empty() && model.is_empty()
}
