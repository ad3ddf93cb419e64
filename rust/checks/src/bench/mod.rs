//! What the proved code costs, next to plain Rust that does the same.
//!
//! [`plain`] is a monitor over the same tables that asks the same questions, question 9 at every step included. [`by_hand`] has
//! two, each for a single protocol, as a gateway without tables has it. [`inputs`] are the tables, texts and messages, [`scans`]
//! many messages together, [`clock`] is the timer.
//! `cargo run --release --bin bench` prints the times.

pub mod by_hand;
pub mod clock;
pub mod inputs;
pub mod plain;
pub mod scans;
