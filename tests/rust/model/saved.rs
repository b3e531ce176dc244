//! Totals saved in a file and read back, as order 4 of document 02 says.

use super::store::{Store, CELL_SLOTS};

pub const ENTRIES_MAX: usize = 4096;

/// The value of some totals.
#[derive(Clone, PartialEq, Eq, Debug)]
pub enum Value {
    Number(i64),
    Array(Vec<Value>),
}

pub fn length_of(entries: usize) -> usize {
    3 + 9 * entries
}

// ---- Saving ----

/// The value of a word of this depth; none where it has over so many entries.
fn value_of(store: &Store, word: i64, depth: usize, room: &mut usize) -> Option<Value> {
    *room = room.checked_sub(1)?;
    if depth == 0 {
        return Some(Value::Number(word));
    }
    let elements = store.elements(word as usize).iter();
    elements.map(|element| value_of(store, *element, depth - 1, room)).collect::<Option<_>>().map(Value::Array)
}

/// The marks and numbers of a value, in prefix order.
fn write(value: &Value, marks: &mut Vec<u8>, numbers: &mut Vec<i64>) {
    match value {
        Value::Number(number) => {
            marks.push(0);
            numbers.push(*number);
        }
        Value::Array(elements) => {
            marks.push(elements.len() as u8 + 1);
            numbers.push(0);
            elements.iter().for_each(|element| write(element, marks, numbers));
        }
    }
}

/// The saved totals of a sound store; none where they have too many entries.
pub fn bytes_of(store: &Store, depth: usize) -> Option<Vec<u8>> {
    let mut room = ENTRIES_MAX;
    let value = value_of(store, store.totals, depth, &mut room)?;
    let (mut marks, mut numbers) = (Vec::new(), Vec::new());
    write(&value, &mut marks, &mut numbers);
    let mut bytes = vec![depth as u8];
    bytes.extend((marks.len() as u16).to_le_bytes());
    bytes.extend(marks);
    bytes.extend(numbers.iter().flat_map(|number| number.to_le_bytes()));
    Some(bytes)
}

// ---- Restoring ----

/// Entries that are read one after another.
struct Reader<'a> {
    marks: &'a [u8],
    numbers: Vec<i64>,
    next: usize,
}

impl Reader<'_> {
    fn value(&mut self, depth: usize) -> Option<Value> {
        let mark = *self.marks.get(self.next)? as usize;
        let number = self.numbers[self.next];
        self.next += 1;
        if depth == 0 {
            return (mark == 0).then_some(Value::Number(number));
        }
        if mark == 0 || mark > CELL_SLOTS + 1 || number != 0 {
            return None;
        }
        (1..mark).map(|_| self.value(depth - 1)).collect::<Option<_>>().map(Value::Array)
    }
}

/// The value in saved totals; none where they break their form or have another depth.
pub fn value_in(saved: &[u8], depth: usize) -> Option<Value> {
    let [label, low, high, rest @ ..] = saved else { return None };
    let count = u16::from_le_bytes([*low, *high]) as usize;
    if *label as usize != depth || count > ENTRIES_MAX || saved.len() != length_of(count) {
        return None;
    }
    let (marks, numbers) = rest.split_at(count);
    let numbers = numbers.chunks_exact(8).map(|bytes| i64::from_le_bytes(bytes.try_into().unwrap())).collect();
    let mut reader = Reader { marks, numbers, next: 0 };
    let value = reader.value(depth)?;
    (reader.next == count).then_some(value)
}

/// The word of a value, whose arrays take cells before those of their elements; none where cells run out.
fn load(store: &mut Store, value: &Value, depth: usize) -> Option<i64> {
    match value {
        Value::Number(number) => Some(*number),
        Value::Array(elements) => {
            let cell = store.acquire(depth as u32 - 1, &[])?;
            for element in elements {
                let word = load(store, element, depth - 1)?;
                store.append(cell, word);
            }
            Some(cell as i64)
        }
    }
}

/// A store with these totals; none where it has too few cells.
pub fn restored(cells: usize, value: &Value, depth: usize) -> Option<Store> {
    let mut store = Store::opened(cells, 0);
    store.totals = load(&mut store, value, depth)?;
    Some(store)
}
