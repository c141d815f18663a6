//! The entries written for speed alone, without proofs, as a limit to hold the library's times to. They keep nothing between calls and allocate
//! nothing, as the library; every answer is the number that include/ruqzhemil.h gives, and is compared with the library's.

mod bound;
mod canonical;
mod charge;
mod code;
mod comtrade;
mod interleavings;
mod judge;
mod keys;
mod layout;
mod plan;
mod preview;
mod read;
mod run;
mod show;
mod tokens;
mod witness;

pub use bound::bound;
pub use canonical::canonical;
pub use charge::charge;
pub use comtrade::comtrade;
pub use interleavings::{first_interleaving, next_interleaving};
pub use judge::judge;
pub use plan::check;
pub use preview::preview;
pub use read::read;
pub use run::play;
pub use show::show;
pub use witness::witness;

/// The number of a refusal.
const fn refusal(number: u64, place: usize) -> u64 {
    (2 << 32) + (number << 16) + place as u64
}
