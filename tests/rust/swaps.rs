//! The cases of swap.txt: acts on one store, in order, with the totals saved and restored.

use crate::model::Lent;
use crate::vectors::{array, code_arrays, empty, file_bytes, number, Calls, Case};

/// Bytes in pieces: two digits a byte, or two digits, `*` and how often.
fn bytes_of(pieces: &[&str]) -> Vec<u8> {
    let byte = |digits: &str| u8::from_str_radix(digits, 16).unwrap();
    let mut bytes = Vec::new();
    for piece in pieces {
        match piece.split_once('*') {
            Some((digits, count)) => bytes.extend(vec![byte(digits); number(count)]),
            None => bytes.extend((0..piece.len() / 2).map(|i| byte(&piece[2 * i..2 * i + 2]))),
        }
    }
    bytes
}

/// Sets words of an array.
pub fn put<T: std::str::FromStr>(array: &mut [T], words: &[&str]) {
    for word in words {
        let (index, value) = word.split_once('=').unwrap();
        array[number::<usize>(index)] = number(value);
    }
}

fn is_refusal(answer: u64) -> bool {
    matches!(answer & 0xff, 1..=11 | 27)
}

/// Whether the code arrays are as a call with this answer leaves them: the script's code, or zero after a refusal.
fn has_code(file: &[u8], lent: &Lent, calls: &Calls, answer: u64) -> bool {
    let mut code = Lent { kinds: vec![1; lent.kinds.len()], operands: vec![1; lent.operands.len()], ..empty() };
    if is_refusal(answer) {
        code.kinds.fill(0);
        code.operands.fill(0);
    } else {
        (calls.translate)(file, &mut code);
    }
    code.kinds == lent.kinds && code.operands == lent.operands
}

/// A call of a case; says whether it agrees.
fn call(key: &str, words: &[&str], file: &[u8], lent: &mut Lent, calls: &Calls) -> bool {
    code_arrays(lent, words);
    let before = (lent.slots.clone(), lent.heads.clone());
    let at = if key == "deliver" || key == "save" { 3 } else { 2 };
    let (wanted, rest) = (number::<u64>(words[at]), &words[at + 1..]);
    let mut agrees = true;
    let answer = match key {
        "open" => (calls.open)(file, lent),
        "check" => (calls.check)(file, lent),
        "deliver" => {
            let readings: Vec<i64> = rest.iter().map(|word| number(word)).collect();
            (calls.deliver)(file, lent, &readings, number(words[2]))
        }
        "save" => {
            let mut buffer = vec![0x5a; number(words[2])];
            let answer = (calls.save)(file, lent, &mut buffer);
            let mut bytes = bytes_of(rest);
            bytes.resize(buffer.len(), 0);
            agrees &= buffer == bytes;
            answer
        }
        _ => (calls.restore)(file, lent, &bytes_of(rest)),
    };
    if is_refusal(answer) || key == "check" || key == "save" {
        agrees &= before == (lent.slots.clone(), lent.heads.clone());
    }
    if key == "restore" && answer == 25 {
        agrees &= lent.slots.iter().all(|word| *word == 0) && lent.heads.iter().all(|word| *word == 0);
    }
    agrees && answer == wanted && has_code(file, lent, calls, answer)
}

pub fn swap_case(case: &Case, calls: &Calls) -> bool {
    let file = file_bytes(case);
    let mut lent = empty();
    let mut agrees = true;
    for (key, words) in case {
        agrees &= match *key {
            "store" => {
                lent.slots = vec![0; number(words[0])];
                lent.heads = vec![0; number(words[1])];
                true
            }
            "put" if words[0] == "slots" => {
                put(&mut lent.slots, &words[1..]);
                true
            }
            "put" => {
                put(&mut lent.heads, &words[1..]);
                true
            }
            "slots" => lent.slots == array::<i64>(lent.slots.len(), words),
            "heads" => lent.heads == array::<u32>(lent.heads.len(), words),
            "open" | "check" | "deliver" | "save" | "restore" => call(key, words, &file, &mut lent, calls),
            "case" | "note" | "file" | "end" => true,
            _ => panic!("{key} is no key of a case"),
        };
    }
    agrees
}
