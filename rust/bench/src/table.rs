use std::hint::black_box;

use crate::timing::medians;

/// How the engine by hand is called in the rows with it.
pub const BY_HAND: &str = "by hand, no proof";

/// The table of ratios, printed row by row as docs/BENCHMARKS.md has it. A row may have an aim, the ratio that is
/// wanted at most; how a row comes out is told and fails nothing, since it depends on the machine.
#[derive(Default)]
pub struct Table {
    met: u32,
    missed: u32,
}

impl Table {
    pub fn with_head() -> Table {
        println!(
            "| {:<53} | {:<27} | {:>9} | {:>9} | {:>5} | aim |",
            "engine", "compared with", "engine us", "other us", "ratio"
        );
        println!("|---|---|---|---|---|---|");
        Table::default()
    }

    /// Times the two sides in turn and prints their medians, the ratio, and the aim if the row has one.
    pub fn row<A, B>(
        &mut self,
        what: &str,
        other: &str,
        aim: Option<f64>,
        mut engine: impl FnMut() -> A,
        mut with: impl FnMut() -> B,
    ) {
        let [engine, with] = medians([&mut || drop(black_box(engine())), &mut || drop(black_box(with()))]);
        let (ratio, [engine, with]) = (engine / with, [engine, with].map(|seconds| seconds * 1e6));
        let told = aim.map_or(String::new(), |aim| self.tell(ratio, aim));
        println!("| {what:<53} | {other:<27} | {engine:>9.2} | {with:>9.2} | {ratio:>5.3} | {told} |");
    }

    fn tell(&mut self, ratio: f64, aim: f64) -> String {
        let is_met = ratio <= aim;
        *if is_met { &mut self.met } else { &mut self.missed } += 1;
        format!("{aim:.2} {}", if is_met { "met" } else { "missed" })
    }

    pub fn print_end(&self) {
        println!("\naims: {} met, {} missed\n", self.met, self.missed);
    }
}
