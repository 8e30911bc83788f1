// Counts what was compared, by category and by function, and prints the first differences.
// Two answers are the same if their bits are, or if both are NaN: Rattle's floats have one NaN.

use std::collections::BTreeMap;

pub struct Tally {
    category: &'static str,
    // what the inputs of this category are, and how many there were
    inputs: (&'static str, u64),
    compared: u64,
    // each function with the number of its answers
    functions: BTreeMap<&'static str, u64>,
    // pairs, plans, sets, points and the like, with how many there were
    things: BTreeMap<&'static str, u64>,
    nan: u64,
    differences: u64,
    total: u64,
}

impl Tally {
    // Every one of `functions` has to be compared at least once.
    pub fn new(functions: &[&'static str]) -> Self {
        Tally {
            category: "",
            inputs: ("", 0),
            compared: 0,
            functions: functions.iter().map(|name| (*name, 0)).collect(),
            things: BTreeMap::new(),
            nan: 0,
            differences: 0,
            total: 0,
        }
    }

    pub fn begin(&mut self, category: &'static str, inputs: &'static str) {
        self.category = category;
        self.inputs = (inputs, 0);
        self.compared = 0;
    }

    pub fn input(&mut self) {
        self.inputs.1 += 1;
    }

    pub fn things(&mut self, what: &'static str, number: usize) {
        *self.things.entry(what).or_insert(0) += number as u64;
    }

    pub fn close(&mut self) {
        let (inputs, number) = self.inputs;
        println!("{number:>9} {inputs} {:>10} answers  {}", self.compared, self.category);
        self.things(inputs, number as usize);
        self.total += self.compared;
    }

    pub fn float(&mut self, function: &'static str, ours: f64, rust: f64, input: impl Fn() -> String) {
        self.floats(function, &[ours], &[rust], input);
    }

    pub fn floats(&mut self, function: &'static str, ours: &[f64], rust: &[f64], input: impl Fn() -> String) {
        assert_eq!(ours.len(), rust.len());
        let both_nan = |i: usize| ours[i].is_nan() && rust[i].is_nan();
        self.nan += (0..ours.len()).filter(|&i| both_nan(i)).count() as u64;
        let other = (0..ours.len()).find(|&i| !both_nan(i) && ours[i].to_bits() != rust[i].to_bits());
        self.count(function, ours.len() as u64, other.is_none(), || {
            let i = other.unwrap_or(0);
            format!("{}: number {i}: ours {:016X}, the Rust's {:016X}", input(), ours[i].to_bits(), rust[i].to_bits())
        });
    }

    // A clamped area: here alone +0 and -0 of the Rust are the same, and ours is +0 (docs/DIFFERENCES.md).
    pub fn clamped(&mut self, function: &'static str, ours: &[f64], rust: &[f64], input: impl Fn() -> String) {
        let rust: Vec<f64> = rust.iter().map(|x| if *x == 0.0 { 0.0 } else { *x }).collect();
        self.floats(function, ours, &rust, input);
    }

    // Whether each of some whole numbers is the Rust's.
    pub fn wholes(&mut self, function: &'static str, ours: &[u64], rust: &[u64], input: impl Fn() -> String) {
        assert_eq!(ours.len(), rust.len());
        let other = (0..ours.len()).find(|&i| ours[i] != rust[i]);
        self.count(function, ours.len() as u64, other.is_none(), || {
            let i = other.unwrap_or(0);
            format!("{}: number {i}: ours {:X}, the Rust's {:X}", input(), ours[i], rust[i])
        });
    }

    pub fn whole(&mut self, function: &'static str, ours: u64, rust: u64, input: impl Fn() -> String) {
        self.count(function, 1, ours == rust, || format!("{}: ours {ours:X}, the Rust's {rust:X}", input()));
    }

    fn count(&mut self, function: &'static str, answers: u64, same: bool, what: impl Fn() -> String) {
        self.compared += answers;
        *self.functions.get_mut(function).expect("a function of the list") += answers;
        if !same {
            self.differences += 1;
            if self.differences <= 20 {
                println!("{}: {function}: {}", self.category, what());
            }
        }
    }

    // Prints the sums; ends the program with 1 where there was a difference or a function was never compared.
    pub fn end(self) {
        for (function, count) in &self.functions {
            println!("{count:>26} answers  {function}");
        }
        let things: Vec<String> = self.things.iter().map(|(what, number)| format!("{number} {what}")).collect();
        println!("{}", things.join(", "));
        println!("{} answers compared ({} of them NaN in both), {} differences", self.total, self.nan, self.differences);
        let missed: Vec<&str> = self.functions.iter().filter(|(_, count)| **count == 0).map(|(name, _)| *name).collect();
        if !missed.is_empty() {
            println!("never compared: {}", missed.join(", "));
        }
        if self.differences > 0 || !missed.is_empty() {
            std::process::exit(1);
        }
    }
}
