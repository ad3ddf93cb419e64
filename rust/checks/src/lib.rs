//! What the proved library is held against.
//!
//! [`second`] is a second implementation of documents 01 and 02, in safe Rust and written from the documents alone. [`compare`]
//! puts both through the same random inputs, and a disagreement is a fault of one of them. [`bench`](mod@bench) has what the proved
//! code is timed against.

#![deny(missing_docs)]
#![deny(unsafe_code)]

pub mod bench;
pub mod compare;
/// The wrapper's declarations once more: each number of what the library gives back is compared, which the wrapper does not show.
#[allow(dead_code, unsafe_code)]
#[path = "../../sojimu/src/ffi.rs"]
mod ffi;
#[allow(missing_docs)]
pub mod second;

// What those declarations are over.
use sojimu::{State, Table};
