//! A second implementation of document 01, as the requests of document 02 amend it, written from the documents alone, to be
//! checked against them line by line.
//!
//! Each module is a section of the document and uses its names. A refusal is the number of the question that got a no.
//! Every entry that takes a table asks question 9 first, and no entry panics, whatever it is given. The definitions below the
//! entries (`judge`, `right`, the machine, `explore`, `search`) are over sound tables.
//!
//! ```
//! use sojimu_checks::second::{message, monitor::*, text};
//!
//! let protocol = text::read(b"rec X.+{!Ask(int[0..100]).&{?Ok().X},!Quit().end}").unwrap();
//! let mut state = State::fresh(&protocol, 200).unwrap();
//! let mut ask = [0; 14];
//! message::make(&protocol, 0, Some(0), &mut ask).unwrap();
//! let mut output = [0; 300];
//! assert_eq!(step(&protocol, &mut state, Side::Device, &ask, &mut output), Verdict::Forwarded);
//! assert_eq!(output[..14], ask);
//! ```

#![forbid(unsafe_code)]

pub mod batch;
pub mod brute;
pub mod fit;
pub mod machine;
pub mod message;
pub mod mistaken;
pub mod monitor;
pub mod random;
pub mod report;
pub mod shortest;
pub mod substituted;
pub mod table;
pub mod text;
pub mod tree;
pub mod warning;
