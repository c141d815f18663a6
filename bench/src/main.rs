//! The static library beside an independent implementation and one that is tuned for speed alone: the same answers, how fast, and the library's stack.

mod answers;
mod compare;
mod generate;
mod independent;
mod inputs;
#[path = "../../include/ruqzhemil.rs"]
mod library;
mod logs;
mod plans;
mod random;
mod speed;
mod stack;
mod timing;
mod tuned;

fn main() {
    let mut numbers = std::env::args().skip(1).map(|word| word.parse().expect("a number"));
    let cases = numbers.next().unwrap_or(30_000);
    if cases > 0 {
        compare::run(cases as usize, numbers.next().unwrap_or(1));
    }
    speed::run();
    stack::print();
}
