//! The cases of code.txt: code that is lent, a stated depth, and acts on one store, in order. No call writes the code.

use crate::model::Lent;
use crate::swaps::put;
use crate::vectors::{array, empty, number, values, Calls, Case};

/// The rows of a case; a line `again N M` stands for the last M rows, N times more.
fn rows(case: &Case) -> Vec<(u8, i64)> {
    let at = case.iter().position(|(key, _)| *key == "rows").unwrap();
    let mut rows: Vec<(u8, i64)> = Vec::new();
    for (key, words) in case[at + 1..].iter().take_while(|(key, _)| *key != "check") {
        if *key == "again" {
            let last = rows[rows.len() - number::<usize>(words[1])..].to_vec();
            (0..number(words[0])).for_each(|_: usize| rows.extend(&last));
        } else {
            rows.push((number(key), number(words[0])));
        }
    }
    rows
}

/// A call of a case; says whether it agrees. A check and a refusal leave the store.
fn call(key: &str, words: &[&str], depth: u64, lent: &mut Lent, calls: &Calls) -> bool {
    let before = lent.clone();
    let (wanted, answer) = if key == "check" {
        (number::<u64>(words[0]), (calls.check_code)(lent, depth))
    } else {
        let readings: Vec<i64> = words[2..].iter().map(|word| number(word)).collect();
        (number(words[1]), (calls.deliver_code)(lent, depth, &readings, number(words[0])))
    };
    let stays = key == "check" || matches!(answer & 0xff, 10 | 11 | 29);
    let kept = if stays { *lent == before } else { lent.kinds == before.kinds && lent.operands == before.operands };
    answer == wanted && kept
}

pub fn code_case(case: &Case, calls: &Calls) -> bool {
    let depth = number(values(case, "depth").unwrap()[0]);
    let lengths = values(case, "arrays").unwrap();
    let (kinds, operands) = rows(case).into_iter().unzip();
    let mut lent = Lent { kinds, operands, ..empty() };
    lent.kinds.resize(number(lengths[0]), 0);
    lent.operands.resize(number(lengths[1]), 0);
    let acts = case.iter().position(|(key, _)| *key == "check").unwrap();
    let mut agrees = true;
    for (key, words) in &case[acts..] {
        agrees &= match *key {
            "store" => {
                lent.slots = vec![0; number(words[0])];
                lent.heads = vec![0; number(words[1])];
                true
            }
            "put" if words[0] == "slots" => {
                put(&mut lent.slots, &words[1..]);
                true
            }
            "put" => {
                put(&mut lent.heads, &words[1..]);
                true
            }
            "slots" => lent.slots == array::<i64>(lent.slots.len(), words),
            "heads" => lent.heads == array::<u32>(lent.heads.len(), words),
            "check" | "deliver" => call(key, words, depth, &mut lent, calls),
            "note" | "end" => true,
            _ => panic!("{key} is no key of a case"),
        };
    }
    agrees
}
