//! Times of the library, of the independent implementation and of the tuned one on the same input. Each is the best of many rounds, and each round
//! times every side once, so that a busy machine slows all alike.

use std::time::Instant;

pub const ROUNDS: usize = 500;

/// Nanoseconds that a side takes in one round, about.
const ROUND: usize = 50_000;

/// An entry at one input, its answer thrown away.
pub type Entry<'a> = Box<dyn FnMut() + 'a>;

/// Nanoseconds of one of many calls.
fn mean(entry: &mut Entry, repeats: usize) -> f64 {
    let began = Instant::now();
    (0..repeats).for_each(|_| entry());
    began.elapsed().as_nanos() as f64 / repeats as f64
}

/// Nanoseconds of each.
pub fn best<const N: usize>(mut entries: [Entry; N]) -> [f64; N] {
    let repeats = entries.each_mut().map(|entry| (ROUND / (mean(entry, 1) as usize + 1)).clamp(1, 500));
    let mut best = [f64::MAX; N];
    for round in 0..ROUNDS * N {
        let i = round % N;
        best[i] = best[i].min(mean(&mut entries[i], repeats[i]));
    }
    best
}

/// Nanoseconds of the library, the independent implementation and the tuned one.
#[derive(Clone, Copy)]
pub struct Times(pub [f64; 3]);

impl Times {
    /// Of one of so many parts of a whole.
    pub fn of_each(self, count: usize) -> Times {
        Times(self.0.map(|time| time / count as f64))
    }

    /// Without what a call takes that does nothing.
    pub fn without(self, other: Times) -> Times {
        Times([0, 1, 2].map(|i| self.0[i] - other.0[i]))
    }

    /// The library's to the independent implementation's, and to the tuned one's.
    fn ratios(&self) -> [f64; 2] {
        [self.0[0] / self.0[1], self.0[0] / self.0[2]]
    }
}

/// What was timed, with how many digits behind the point, and a line to each input.
pub struct Table {
    name: &'static str,
    digits: usize,
    rows: Vec<(String, Times)>,
}

impl Table {
    pub fn new(name: &'static str, digits: usize) -> Table {
        Table { name, digits, rows: vec![] }
    }

    pub fn add(&mut self, input: &str, times: Times) {
        self.rows.push((input.to_string(), times));
    }

    pub fn print(&self) {
        let digits = self.digits;
        println!("\n{:34} {:>9} {:>11} {:>9} {:>14} {:>8}", self.name, "library", "independent", "tuned", "to independent", "to tuned");
        for (input, times) in &self.rows {
            let ([ours, theirs, tuned], [to_theirs, to_tuned]) = (times.0, times.ratios());
            println!("  {input:32} {ours:9.digits$} {theirs:11.digits$} {tuned:9.digits$} {to_theirs:14.2} {to_tuned:8.2}");
        }
    }

    /// The least and the most of each column, and of the ratios the geometric mean.
    pub fn print_ranges(&self) {
        let range = |column: &dyn Fn(&Times) -> f64| {
            let all = self.rows.iter().map(|(_, times)| column(times));
            (all.clone().fold(f64::MAX, f64::min), all.fold(f64::MIN, f64::max))
        };
        let digits = self.digits;
        print!("{:34}", self.name);
        for i in 0..3 {
            let (least, most) = range(&|times: &Times| times.0[i]);
            print!(" | {:>17}", format!("{least:.digits$} to {most:.digits$}"));
        }
        for i in 0..2 {
            let (least, most) = range(&|times: &Times| times.ratios()[i]);
            let logs: f64 = self.rows.iter().map(|(_, times)| times.ratios()[i].ln()).sum();
            let mean = (logs / self.rows.len() as f64).exp();
            print!(" | {:>22}", format!("{least:.2} to {most:.2}, mean {mean:.2}"));
        }
        println!();
    }
}
