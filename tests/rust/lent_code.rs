//! Lent code: that of scripts, tuned and damaged, and code made from nothing. It is checked, and deliveries are made by
//! it on stores of few cells. What is accepted leaves sound stores and computes what it means with raises and drops
//! ignored.

use crate::compare::Tally;
use crate::generate::{self, Shape};
use crate::make_code;
use crate::model::lent::{self, meaning};
use crate::model::store::Store;
use crate::model::{code, rules, Lent};
use crate::random::Random;
use crate::tune::{self, Rows};
use crate::{budget, damage_store, readings};

/// The code of a script that the rules accept, and its main's depth.
fn translated(random: &mut Random) -> (Rows, usize) {
    loop {
        let functions = 1 + random.below(5).min(random.below(5));
        let nodes = *random.pick(&[4, 12, 30, 60, 120]);
        let spine = random.once_in(6);
        let file = generate::script(random, Shape { functions, nodes, spine, levels: 63, faulty: false });
        if let Ok(functions) = rules::judge(&file) {
            let coded = code::translate(&functions);
            return (code::rows(&coded), coded[0].depth);
        }
    }
}

/// Code arrays that hold these lines: with zeros after them, cut, or with something far past them.
fn arrays(random: &mut Random, rows: &Rows) -> Lent {
    let (kinds, operands) = rows.iter().copied().unzip();
    let mut lent = Lent { kinds, operands, slots: Vec::new(), heads: Vec::new() };
    match random.below(40) {
        0 => lent.kinds.truncate(random.below(rows.len() + 1)),
        1 => lent.operands.truncate(random.below(rows.len() + 1)),
        2 => {
            lent.kinds.resize(4090 + random.below(12), 0);
            lent.operands.resize(4090 + random.below(12), 0);
            let at = random.below(lent.kinds.len());
            lent.kinds[at] = lent.kinds[at].max(random.below(2) as u8 * 15);
        }
        3 => lent.operands.resize(rows.len() + random.below(5000), 0),
        4 => {
            lent.operands.resize(rows.len() + 1 + random.below(3), 0);
            *lent.operands.last_mut().unwrap() = random.below(2) as i64;
        }
        5..=9 => {
            lent.kinds.resize(rows.len() + random.below(4), 0);
            lent.operands.resize(rows.len() + random.below(4), 0);
        }
        _ => {}
    }
    lent
}

/// A delivery, and what is known of it beside the answer: the store is sound after it, and unless cells ran out its
/// number, steps and totals are those that the code means.
fn deliver(random: &mut Random, tally: &mut Tally, lent: &mut Lent, depth: u64) {
    let (readings, budget) = (readings(random), budget(random));
    let before = lent.clone();
    let answer = tally.deliver_code(lent, depth, &readings, budget);
    if !matches!(answer & 0xff, 0 | 21..=28) {
        return;
    }
    let store = Store::from_words(&lent.slots, &lent.heads).unwrap();
    tally.differ += u64::from(!store.is_sound(depth as usize));
    if let Some(meant) = meaning::deliver(&before, depth, &readings, budget) {
        let totals = meaning::totals(&store, depth as usize);
        let found = (answer & 0xff, answer >> 24 & 0xff_ffff, totals);
        tally.differ += u64::from(answer & 0xff != 25 && found != meant);
    }
}

/// Checks code, and makes deliveries by it, to stores that are at times damaged.
fn run(random: &mut Random, tally: &mut Tally, code: &'static str, lent: &mut Lent, depth: u64) {
    let answer = tally.check_code(lent, depth);
    let class = lent::judge(&lent.kinds, &lent.operands, depth).map_or_else(|fault| fault.class(), |_| "accepted");
    *tally.classes.entry((code, class)).or_default() += 1;
    if answer & 0xff != 0 && !random.once_in(8) {
        return;
    }
    let cells = *random.pick(&[1, 2, 3, 4, 5, 6, 8, 12, 40]);
    let opened = Store::opened(cells, (depth % 5) as usize);
    (lent.slots, lent.heads) = (opened.slot_words(), opened.head_words());
    for _ in 0..1 + random.below(5) {
        if random.once_in(30) {
            damage_store(random, lent);
        }
        deliver(random, tally, lent, depth);
    }
}

/// Small codes of depth 0, each with the lengths of its arrays and the line at fault, or its lines. All begin with a
/// main that takes a number.
const SMALL: [(&[(u8, i64)], usize, usize, Result<u64, u64>); 9] = [
    (&[(15, 1), (16, 0), (3, 0)], 6, 5, Err(5)), // it goes on past the shorter array
    (&[(15, 1), (16, 0)], 5, 5, Err(4)),         // an atom too few
    (&[(15, 1)], 4, 4, Err(4)),                  // a line is wanted
    (&[(8, 258), (15, 1), (16, 0), (3, 2)], 20, 20, Err(3)), // zeros that close the code are no functions
    (&[(8, 258), (15, 1), (16, 0), (3, 2), (0, 9), (16, 0), (2, 0)], 10, 10, Err(7)), // of a callee at fault
    (&[(8, 258), (3, 256), (15, 1), (16, 0), (3, 2), (0, 9), (16, 0), (2, 0)], 11, 11, Err(3)),
    (&[(15, 1), (16, 0), (3, 0), (0, 1), (1, 263), (11, 3), (3, 7), (16, 0), (3, 3)], 12, 12, Ok(12)),
    (&[(13, 770), (3, 1), (15, 1), (16, 0), (3, 3), (15, 2), (16, 0), (3, 0)], 11, 11, Err(5)),
    (&[(15, 1), (16, 0), (3, 1 << 40)], 6, 6, Err(4)),
];

/// Checks the small codes.
pub fn small() -> Tally {
    let mut tally = Tally::default();
    for (rows, kinds, operands, wanted) in SMALL {
        let main = [(0, 2), (1, 0), (1, 257)];
        let mut lent = Lent { kinds: Vec::new(), operands: Vec::new(), slots: Vec::new(), heads: Vec::new() };
        (lent.kinds, lent.operands) = main.iter().chain(rows).copied().unzip();
        lent.kinds.resize(kinds, 0);
        lent.operands.resize(operands, 0);
        let wanted = wanted.map_or_else(|line| 29 + (line << 8), |lines| lines << 24);
        tally.differ += u64::from(tally.check_code(&lent, 0) != wanted);
    }
    tally
}

/// Code as the translator gives it passes, with its lines.
fn pass(random: &mut Random, tally: &mut Tally) {
    let (rows, depth) = translated(random);
    let (kinds, operands) = rows.iter().copied().unzip();
    let mut lent = Lent { kinds, operands, slots: Vec::new(), heads: Vec::new() };
    let passes = tally.check_code(&lent, depth as u64) == (rows.len() as u64) << 24;
    tally.differ += u64::from(!passes && rows.len() <= lent::LINES_MAX);
    run(random, tally, "translated", &mut lent, depth as u64);
}

/// Code of scripts as it is, tuned and damaged, and code made from nothing, some of it at a limit.
pub fn codes(random: &mut Random, count: usize) -> Tally {
    let mut tally = Tally::default();
    for turn in 0..count {
        if turn % 16 == 0 {
            pass(random, &mut tally);
            continue;
        }
        if turn % 64 == 1 {
            let rows = make_code::at_limit(random);
            let mut lent = arrays(random, &rows);
            run(random, &mut tally, "at a limit", &mut lent, 0);
            continue;
        }
        let is_made = turn % 2 == 1;
        let (mut rows, depth) = if is_made { make_code::code(random) } else { translated(random) };
        if !is_made || random.once_in(3) {
            tune::tune(random, &mut rows);
        }
        let is_damaged = random.once_in(4);
        if is_damaged {
            tune::damage(random, &mut rows);
        }
        let mut lent = arrays(random, &rows);
        let depth = if random.once_in(40) { random.next() >> random.below(64) } else { depth as u64 };
        let code = if is_damaged {
            "damaged"
        } else if is_made {
            "made from nothing"
        } else {
            "tuned"
        };
        run(random, &mut tally, code, &mut lent, depth);
    }
    tally
}
