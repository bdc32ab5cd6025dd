// The counts of what was compared.
use crate::shared::papers::MOST_POINTS;
use std::collections::BTreeMap;

// Sizes of maps: the most points of each class.
const SIZES: [(u64, &str); 6] = [
    (63, "4 to 63 points"),
    (1023, "64 to 1,023 points"),
    (65_535, "1,024 to 65,535 points"),
    (1_048_575, "65,536 to 1,048,575 points"),
    (MOST_POINTS - 1, "1,048,576 to 16,777,215 points"),
    (MOST_POINTS, "16,777,216 points"),
];

const CLASSES: [&str; 5] = ["normal", "subnormal", "zero", "infinite", "NaN"];

#[derive(Default)]
pub struct Counts {
    // by call, grid, axis count and answer
    calls: BTreeMap<(&'static str, &'static str, u64, u64), u64>,
    // by what the class is of, and the class
    classes: BTreeMap<(&'static str, String), u64>,
    // cells that the Rust answers, by the class of the float
    floats: [u64; 5],
}

impl Counts {
    pub fn call(&mut self, call: &'static str, grid: &'static str, axes: u64, answer: u64) {
        *self.calls.entry((call, grid, if axes > 4 { 0 } else { axes }, answer)).or_default() += 1;
    }

    pub fn class(&mut self, of: &'static str, class: &str) {
        *self.classes.entry((of, class.to_string())).or_default() += 1;
    }

    // The size of a map that is fitted or evaluated.
    pub fn size(&mut self, grid: &'static str, dims: &[u64]) {
        let points: u64 = dims.iter().product();
        let (_, class) = SIZES.iter().find(|(most, _)| points <= *most).expect("too many points");
        self.class("maps accepted", &format!("{grid}, {} axes, {class}", dims.len()));
    }

    pub fn outputs(&mut self, floats: &[f64]) {
        for x in floats {
            let class = match x.classify() {
                std::num::FpCategory::Normal => 0,
                std::num::FpCategory::Subnormal => 1,
                std::num::FpCategory::Zero => 2,
                std::num::FpCategory::Infinite => 3,
                std::num::FpCategory::Nan => 4,
            };
            self.floats[class] += 1;
        }
    }

    // Calls with one column for each axis count, then the classes.
    pub fn tell(&self) {
        println!("| call | grid | answer | 1 axis | 2 axes | 3 axes | 4 axes | other counts |");
        println!("|---|---|---|---|---|---|---|---|");
        let rows: std::collections::BTreeSet<_> =
            self.calls.keys().map(|&(call, grid, _, n)| (call, grid, n)).collect();
        for (call, grid, answer) in rows {
            let cells = [1, 2, 3, 4, 0].map(|axes| self.calls.get(&(call, grid, axes, answer)).copied().unwrap_or(0));
            println!("| {call} | {grid} | {answer} | {} |", cells.map(|n| n.to_string()).join(" | "));
        }
        println!();
        println!("| of | class | count |");
        println!("|---|---|---|");
        for ((of, class), n) in &self.classes {
            println!("| {of} | {class} | {n} |");
        }
        for (class, n) in CLASSES.iter().zip(self.floats) {
            println!("| cells compared | {class} | {n} |");
        }
        println!();
    }
}
