//! The static library against a second implementation, on scripts, lent code and stores made at random, long and short,
//! valid and damaged, and on the test vectors that the arguments name. Exit status 0 where all agree.

mod codes;
mod compare;
mod engine;
mod generate;
mod lent_code;
mod make_code;
mod model;
mod random;
mod swaps;
mod tune;
mod vectors;

use compare::Tally;
use generate::Shape;
use model::Lent;
use random::Random;

/// Arrays of these lengths with something in them.
fn lent(random: &mut Random, kinds: usize, operands: usize, cells: usize) -> Lent {
    Lent {
        kinds: (0..kinds).map(|_| random.next() as u8).collect(),
        operands: (0..operands).map(|_| random.next() as i64).collect(),
        slots: (0..1 + 16 * cells).map(|_| random.next() as i64).collect(),
        heads: (0..1 + 4 * cells).map(|_| random.next() as u32).collect(),
    }
}

/// Lengths of code arrays: ample, short, unlike, or more than can be used.
fn code_lengths(random: &mut Random) -> (usize, usize) {
    match random.below(8) {
        0 => (random.below(60), random.below(60)),
        1 => (4096, random.below(300)),
        2 => (random.below(300), 4096),
        3 => (5000, 4100),
        _ => (4096, 4096),
    }
}

fn shape(random: &mut Random) -> Shape {
    let functions = 1 + random.below(6).min(random.below(6));
    let nodes = *random.pick(&[4, 12, 30, 60, 120, 250]);
    Shape { functions, nodes, spine: random.once_in(4), levels: 63, faulty: false }
}

fn readings(random: &mut Random) -> Vec<i64> {
    let count = if random.once_in(20) { random.below(18) } else { random.below(5) };
    (0..count).map(|_| random.number()).collect()
}

fn budget(random: &mut Random) -> u64 {
    match random.below(10) {
        0 => random.below(12) as u64,
        1 => 1_000_000 + random.below(2) as u64,
        _ => 50 + random.below(3000) as u64,
    }
}

/// Changes a word or a length of a store.
fn damage_store(random: &mut Random, lent: &mut Lent) {
    match random.below(12) {
        0 => lent.slots.push(0),
        1 => drop(lent.heads.pop()),
        2 | 3 => {
            let at = random.below(lent.slots.len());
            lent.slots[at] = random.number();
        }
        4 => {
            let at = random.below(lent.heads.len());
            lent.heads[at] = random.next() as u32;
        }
        5 => {
            let (at, from) = (random.below(lent.heads.len()), random.below(lent.heads.len()));
            lent.heads[at] = lent.heads[from];
        }
        _ => {
            let at = random.below(lent.heads.len().min(40));
            lent.heads[at] = lent.heads[at].wrapping_add_signed(random.below(3) as i32 - 1);
        }
    }
}

/// Files, valid and damaged, long and short, to be translated.
fn files(random: &mut Random, count: usize) -> Tally {
    let mut tally = Tally::default();
    for turn in 0..count {
        let shape = match turn % 16 {
            1 => Shape { functions: 1 + random.below(33), nodes: 30, spine: false, levels: 63, faulty: false },
            2 => Shape { functions: 2, nodes: 400, spine: false, levels: 63, faulty: false },
            3 => Shape { functions: 1, nodes: 300, spine: true, levels: 66, faulty: false },
            4 => Shape { functions: 2, nodes: 60, spine: false, levels: 63, faulty: true },
            _ => shape(random),
        };
        let mut file = generate::script(random, shape);
        if turn % 16 == 0 {
            file = (0..random.below(40)).map(|_| random.next() as u8).collect();
        } else if turn % 3 == 0 {
            generate::damage(random, &mut file);
        }
        let (kinds, operands) = code_lengths(random);
        let mut arrays = lent(random, kinds, operands, 1);
        tally.translate(&file, &mut arrays);
    }
    tally
}

/// Every shorter file of a script, and one byte more.
fn cut_files(random: &mut Random) -> Tally {
    let mut tally = Tally::default();
    let mut file = generate::script(random, Shape { functions: 3, nodes: 40, spine: false, levels: 63, faulty: false });
    file.push(0);
    for length in 0..=file.len() {
        let mut arrays = lent(random, 4096, 4096, 2);
        tally.translate(&file[..length], &mut arrays);
        tally.open(&file[..length], &mut arrays);
    }
    tally
}

/// Stores that are opened, delivered to, checked, and at times damaged.
fn histories(random: &mut Random, count: usize) -> Tally {
    let mut tally = Tally::default();
    for _ in 0..count {
        let shape = shape(random);
        let file = generate::script(random, shape);
        let cells = *random.pick(&[1, 2, 3, 4, 6, 8, 16, 40, 255, 256]);
        let mut arrays = lent(random, 4096, 4096, cells);
        if random.once_in(20) {
            damage_store(random, &mut arrays);
        }
        if tally.open(&file, &mut arrays) != 0 {
            continue;
        }
        for _ in 0..1 + random.below(8) {
            let (readings, budget) = (readings(random), budget(random));
            tally.deliver(&file, &mut arrays, &readings, budget);
            if random.once_in(12) {
                damage_store(random, &mut arrays);
            }
            tally.check(&file, &mut arrays);
        }
    }
    tally
}

/// Changes saved totals: a byte, the length, or all of them.
fn damage_saved(random: &mut Random, saved: &mut Vec<u8>) {
    match random.below(8) {
        0 => drop(saved.pop()),
        1 => saved.push(0),
        2 => saved.truncate(random.below(12)),
        3 => *saved = (0..random.below(40)).map(|_| random.below(3) as u8).collect(),
        4 => saved.extend([0; 9]),
        _ => {
            let at = random.below(saved.len().min(12));
            saved[at] = saved[at].wrapping_add(1 + random.below(3) as u8);
        }
    }
}

/// The totals of a store as they are saved, with their number; the buffer is ample, or at times too short.
fn save(random: &mut Random, tally: &mut Tally, file: &[u8], arrays: &mut Lent) -> (u64, Vec<u8>) {
    let length = if random.once_in(6) { random.below(60) } else { 36_867 + random.below(2) };
    let mut buffer: Vec<u8> = (0..length).map(|_| random.next() as u8).collect();
    let number = tally.save(file, arrays, &mut buffer);
    if number == 0 {
        buffer.truncate(3 + 9 * (buffer[1] as usize + 256 * buffer[2] as usize));
    }
    (number, buffer)
}

/// Sites whose totals are saved after some deliveries, and restored into a store of another size. Both sites go on with
/// the same deliveries, and while neither meets 25 their totals are saved alike.
fn swapped_sites(random: &mut Random, count: usize) -> Tally {
    let mut tally = Tally::default();
    for _ in 0..count {
        let shape = shape(random);
        let file = generate::script(random, shape);
        let cells = *random.pick(&[2, 3, 4, 8, 16, 40, 255, 256]);
        let mut site = lent(random, 4096, 4096, cells);
        if tally.open(&file, &mut site) != 0 {
            continue;
        }
        for _ in 0..1 + random.below(4) {
            tally.deliver(&file, &mut site, &readings(random), budget(random));
        }
        let (number, mut saved) = save(random, &mut tally, &file, &mut site);
        let is_damaged = random.once_in(3);
        if is_damaged {
            damage_saved(random, &mut saved);
        }
        let cells = *random.pick(&[1, 2, 3, 5, 9, 40, 256]);
        let mut swapped = lent(random, 4096, 4096, cells);
        if random.once_in(20) {
            damage_store(random, &mut swapped);
        }
        if tally.restore(&file, &mut swapped, &saved) != 0 || number != 0 {
            continue;
        }
        let (number, again) = save(random, &mut tally, &file, &mut swapped);
        tally.differ += u64::from(number == 0 && again != saved);
        if is_damaged {
            continue;
        }
        for _ in 0..random.below(4) {
            let (readings, budget) = (readings(random), budget(random));
            let numbers = [
                tally.deliver(&file, &mut site, &readings, budget),
                tally.deliver(&file, &mut swapped, &readings, budget),
            ];
            if numbers.contains(&25) {
                break;
            }
            let (mut one, mut other) = (vec![1; 36_867], vec![2; 36_867]);
            tally.save(&file, &mut site, &mut one);
            tally.save(&file, &mut swapped, &mut other);
            tally.differ += u64::from(one != other);
        }
    }
    tally
}

fn main() {
    let mut agreed = true;
    for path in std::env::args().skip(1) {
        agreed &= vectors::run(&path);
    }
    let mut random = Random(1);
    agreed &= files(&mut random, 12_000).report("files");
    agreed &= cut_files(&mut random).report("cut files");
    agreed &= histories(&mut random, 4_000).report("histories");
    agreed &= swapped_sites(&mut random, 2_000).report("swapped sites");
    agreed &= lent_code::small().report("small lent code");
    agreed &= lent_code::codes(&mut random, 6_000).report("lent code");
    println!("{}", if agreed { "all agree" } else { "NOT ALL AGREE" });
    std::process::exit(if agreed { 0 } else { 1 });
}
