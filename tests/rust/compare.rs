//! Each call made twice, by the engine and by the model, on equal arrays; and counts of what was answered.

use crate::engine;
use crate::model::{self, Lent};
use std::collections::BTreeMap;

/// How often each number was answered, by the name of the call; and of lent code, by where it is from, how much was
/// accepted and how much is at fault in what.
#[derive(Default)]
pub struct Tally {
    pub calls: BTreeMap<(&'static str, u64), u64>,
    pub classes: BTreeMap<(&'static str, &'static str), u64>,
    pub differ: u64,
}

/// Where a delivery's answer has its lowest level.
pub const LEVEL_BITS: u64 = 0xff_ff00;

impl Tally {
    /// Compares a call's answers and lent arrays; what the engine left becomes what is lent.
    fn compare(&mut self, call: &'static str, file: &[u8], engine: (u64, Lent), model: (u64, Lent)) -> Lent {
        let bytes = || format!("file {}", file.iter().map(|byte| format!("{byte:02x}")).collect::<String>());
        self.compare_with(call, bytes, engine, model)
    }

    /// The same; where they differ it says what the call was lent.
    fn compare_with(
        &mut self,
        call: &'static str,
        lent: impl Fn() -> String,
        engine: (u64, Lent),
        model: (u64, Lent),
    ) -> Lent {
        *self.calls.entry((call, engine.0 & 0xff)).or_default() += 1;
        if engine != model {
            self.differ += 1;
            if self.differ < 4 {
                eprintln!("{call}: engine {:#x}, model {:#x}\n  {}", engine.0, model.0, lent());
            }
        }
        engine.1
    }

    pub fn translate(&mut self, file: &[u8], lent: &mut Lent) {
        let (mut ours, mut theirs) = (lent.clone(), lent.clone());
        let engine = engine::translate(file, &mut ours);
        let model = model::translate(file, &mut theirs);
        *lent = self.compare("translate", file, (engine, ours), (model, theirs));
    }

    pub fn open(&mut self, file: &[u8], lent: &mut Lent) -> u64 {
        let (mut ours, mut theirs) = (lent.clone(), lent.clone());
        let engine = engine::open(file, &mut ours);
        let model = model::open(file, &mut theirs);
        *lent = self.compare("open", file, (engine, ours), (model, theirs));
        engine & 0xff
    }

    pub fn check(&mut self, file: &[u8], lent: &mut Lent) {
        let (mut ours, mut theirs) = (lent.clone(), lent.clone());
        let engine = engine::check(file, &mut ours);
        let model = model::check(file, &mut theirs);
        *lent = self.compare("check", file, (engine, ours), (model, theirs));
    }

    pub fn deliver(&mut self, file: &[u8], lent: &mut Lent, readings: &[i64], budget: u64) -> u64 {
        let (mut ours, mut theirs) = (lent.clone(), lent.clone());
        let engine = engine::deliver(file, &mut ours, readings, budget);
        let model = model::deliver(file, &mut theirs, readings, budget);
        *lent = self.compare("deliver", file, (engine, ours), (model, theirs));
        engine & 0xff
    }

    /// Saves into a buffer that holds something else before.
    pub fn save(&mut self, file: &[u8], lent: &mut Lent, buffer: &mut [u8]) -> u64 {
        let (mut ours, mut theirs) = (lent.clone(), lent.clone());
        let mut modelled = buffer.to_vec();
        let engine = engine::save(file, &mut ours, buffer);
        let model = model::save(file, &mut theirs, &mut modelled);
        self.differ += u64::from(*buffer != modelled);
        *lent = self.compare("save", file, (engine, ours), (model, theirs));
        engine & 0xff
    }

    pub fn restore(&mut self, file: &[u8], lent: &mut Lent, saved: &[u8]) -> u64 {
        let (mut ours, mut theirs) = (lent.clone(), lent.clone());
        let engine = engine::restore(file, &mut ours, saved);
        let model = model::restore(file, &mut theirs, saved);
        *lent = self.compare("restore", file, (engine, ours), (model, theirs));
        engine & 0xff
    }

    /// Checks the code that is lent; the whole answer.
    pub fn check_code(&mut self, lent: &Lent, depth: u64) -> u64 {
        let before = lent.clone();
        let engine = engine::check_code(lent, depth);
        let model = model::check_code(&before, depth);
        self.compare_with("check_code", || code_text(lent, depth), (engine, lent.clone()), (model, before));
        engine
    }

    /// Delivers by the code that is lent; the whole answer.
    pub fn deliver_code(&mut self, lent: &mut Lent, depth: u64, readings: &[i64], budget: u64) -> u64 {
        let (mut ours, mut theirs) = (lent.clone(), lent.clone());
        let engine = engine::deliver_code(&mut ours, depth, readings, budget);
        let model = model::deliver_code(&mut theirs, depth, readings, budget);
        let text = || format!("{}; readings {readings:?}, budget {budget}", code_text(&theirs, depth));
        *lent = self.compare_with("deliver_code", text, (engine, ours), (model, theirs.clone()));
        engine
    }

    /// Prints how often each number was answered, and says whether all agreed.
    pub fn report(&self, title: &str) -> bool {
        let total: u64 = self.calls.values().sum();
        println!("{title}: {total} calls, {} differ", self.differ);
        for call in ["translate", "open", "check", "deliver", "save", "restore", "check_code", "deliver_code"] {
            let counts: Vec<String> = self
                .calls
                .iter()
                .filter(|((name, _), _)| *name == call)
                .map(|((_, number), count)| format!("{number}: {count}"))
                .collect();
            if !counts.is_empty() {
                println!("  {call:12} by number  {}", counts.join(", "));
            }
        }
        for ((code, class), count) in &self.classes {
            println!("  {code}, {class}: {count}");
        }
        self.differ == 0 && total > 0
    }
}

/// Lent code, for people.
fn code_text(lent: &Lent, depth: u64) -> String {
    let rows: Vec<String> =
        lent.kinds.iter().zip(&lent.operands).map(|(kind, operand)| format!("{kind}/{operand}")).collect();
    format!("depth {depth}, arrays {} {}, rows {}", lent.kinds.len(), lent.operands.len(), rows.join(" "))
}
