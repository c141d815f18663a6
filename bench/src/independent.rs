//! An independent implementation of the entries: written in plain Rust from the papers alone, apart from the product and without proofs, and tuned by
//! hand. Answers are compared with its answers, and times with its times.

mod bound;
mod canonical;
mod charge;
mod comtrade;
mod interleavings;
mod judge;
mod plan;
mod preview;
mod read;
mod run;
mod show;
mod witness;

pub use bound::bound;
pub use canonical::canonical;
pub use charge::charge;
pub use comtrade::comtrade;
pub use interleavings::{first_interleaving, next_interleaving};
pub use judge::judge;
pub use plan::check;
pub use preview::{preview, Preview};
pub use read::{read, WORDS};
pub use run::{play, Outcome, State};
pub use show::show;
pub use witness::witness;

/// Number and place.
pub type Refusal = (u8, usize);
