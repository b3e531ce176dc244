//! Code of scripts as people tune it: raises and drops are moved, taken away and put in, names are changed, maps
//! rewrite their array or no longer do. And damaged code, with a line too few or too many, or another kind or operand.

use crate::random::Random;

pub type Rows = Vec<(u8, i64)>;

/// The lines of trees.
fn lines(rows: &Rows) -> Vec<usize> {
    (0..rows.len()).filter(|row| !matches!(rows[*row].0, 0..=3)).collect()
}

/// The lines of some kinds.
fn of_kinds(rows: &Rows, kinds: &[u8]) -> Vec<usize> {
    (0..rows.len()).filter(|row| kinds.contains(&rows[*row].0)).collect()
}

fn pick(random: &mut Random, rows: &[usize]) -> Option<usize> {
    (!rows.is_empty()).then(|| *random.pick(rows))
}

/// Moves a drop, or at times a raise, by a few lines.
fn move_line(random: &mut Random, rows: &mut Rows) {
    let kinds: &[u8] = if random.once_in(5) { &[14] } else { &[15] };
    let Some(from) = pick(random, &of_kinds(rows, kinds)) else { return };
    let row = rows.remove(from);
    let starts = lines(rows);
    let here = starts.iter().position(|start| *start >= from).unwrap_or(starts.len());
    let by = 1 + random.below(5).min(random.below(5));
    let there = if random.once_in(2) { here.saturating_sub(by) } else { here + by };
    rows.insert(starts.get(there).copied().unwrap_or(rows.len()), row);
}

/// Takes away a raise, and the next drop of the same name, or the nearest one before it.
fn remove_pair(random: &mut Random, rows: &mut Rows) {
    let Some(raise) = pick(random, &of_kinds(rows, &[14])) else { return };
    let drop = (15, rows[raise].1);
    let after = (raise + 1..rows.len()).find(|row| rows[*row] == drop);
    let Some(other) = after.or_else(|| (0..raise).rev().find(|row| rows[*row] == drop)) else { return };
    rows.remove(raise.max(other));
    rows.remove(raise.min(other));
}

/// Puts in a raise and a drop of a name, some lines apart.
fn insert_pair(random: &mut Random, rows: &mut Rows) {
    let Some(named) = pick(random, &of_kinds(rows, &[3, 14, 15])) else { return };
    let name = rows[named].1;
    let starts = lines(rows);
    let near = starts.iter().position(|start| *start > named).unwrap_or(starts.len() - 1);
    let first = near.saturating_sub(random.below(3));
    let second = (first + random.below(8)).min(starts.len() - 1);
    rows.insert(starts[second], (15, name));
    rows.insert(starts[first], (14, name));
}

/// Takes away a raise or a drop.
fn remove_line(random: &mut Random, rows: &mut Rows) {
    if let Some(row) = pick(random, &of_kinds(rows, &[14, 15])) {
        rows.remove(row);
    }
}

/// How many of an operand's low bytes are names.
fn names_in(kind: u8) -> usize {
    match kind {
        0 | 2 | 16 => 0,
        13 | 19 | 21 => 2,
        20 => 3,
        _ => 1,
    }
}

/// Swaps two names in a function, of which the second may be none of its names.
fn rename(random: &mut Random, rows: &mut Rows) {
    let Some(from) = pick(random, &of_kinds(rows, &[0])) else { return };
    let to = (from + 1..rows.len()).find(|row| rows[*row].0 == 0).unwrap_or(rows.len());
    let parameters = rows[from].1 as usize % 256;
    let known = if parameters > 0 && random.once_in(2) {
        rows.get(from + 1 + random.below(parameters)).map_or(0, |row| row.1 & 255)
    } else {
        random.below(12) as i64
    };
    let other = if random.once_in(3) { random.below(12) } else { random.below(256) } as i64;
    for (kind, operand) in &mut rows[from + 1..to] {
        for shift in (0..names_in(*kind)).map(|byte| 8 * byte) {
            let name = *operand >> shift & 255;
            let new = if name == known { other } else if name == other { known } else { name };
            *operand += (new - name) << shift;
        }
    }
}

/// Makes a map rewrite its array, or no longer; at times a drop of the array goes or comes.
fn change_map(random: &mut Random, rows: &mut Rows) {
    let Some(map) = pick(random, &of_kinds(rows, &[13, 21])) else { return };
    let drop = rows.get(map + 1).map(|array| (15, array.1));
    rows[map].0 = 34 - rows[map].0;
    if rows[map].0 == 21 {
        if let Some(row) = (map..rows.len()).find(|row| Some(rows[*row]) == drop) {
            rows.remove(row);
        }
    } else if let (Some(drop), Some(row)) = (drop, (map..rows.len()).find(|row| rows[*row].0 == 16)) {
        rows.insert((row + 2).min(rows.len()), drop);
    }
}

/// Tunes code in one or more places.
pub fn tune(random: &mut Random, rows: &mut Rows) {
    for _ in 0..1 + random.below(4).min(random.below(4)) {
        match random.below(12) {
            0 | 1 => remove_pair(random, rows),
            2 => insert_pair(random, rows),
            3 => rename(random, rows),
            4 => change_map(random, rows),
            5 => remove_line(random, rows),
            _ => move_line(random, rows),
        }
    }
}

/// Another operand: near, in another part, or any.
fn changed(random: &mut Random, operand: i64) -> i64 {
    let by = [1, -1, 2, -2][random.below(4)];
    match random.below(8) {
        0 if random.once_in(2) => random.next() as i64,
        0 => operand ^ 1 << random.below(64),
        1 => operand.wrapping_add(65536 * by),
        2 | 3 => operand.wrapping_add(256 * by),
        4 => random.below(8) as i64,
        _ => operand.wrapping_add(by),
    }
}

/// Changes the line of a function: its parameters, its depth, or what is out of their range.
fn damage_function(random: &mut Random, rows: &mut Rows) {
    let functions = of_kinds(rows, &[0]);
    if let Some(last) = functions.last() {
        let row = if random.once_in(2) { *last } else { *random.pick(&functions) };
        rows[row].1 += [1, 9, 256, 5 * 256, 1 << 40][random.below(5)];
    }
}

/// Damages code in one or more places.
pub fn damage(random: &mut Random, rows: &mut Rows) {
    for _ in 0..1 + random.below(3).min(random.below(3)) {
        if rows.is_empty() {
            return;
        }
        let row = random.below(rows.len());
        match random.below(12) {
            0 | 1 => drop(rows.remove(row)),
            2 => rows.insert(row, rows[row]),
            3 => rows.insert(row, (random.below(24) as u8, random.below(6) as i64)),
            4 => rows[row].0 = random.below(24) as u8,
            5 => {
                let other = random.below(rows.len());
                rows.swap(row, other);
            }
            6 => rows.truncate(row),
            7 => damage_function(random, rows),
            _ => rows[row].1 = changed(random, rows[row].1),
        }
    }
}
