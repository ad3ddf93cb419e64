//! The proved code: the static library `libsojimu.a` behind safe types.
//!
//! The calls are those of document 01 and of the requests of document 02, and bear their names: [`Table::read`], [`Table::dual`],
//! [`Table::make`], [`Table::fresh`], [`Table::step`], [`Table::due`], [`Table::batch`], [`Table::warning`], [`Table::fit`],
//! [`report_into`], and in [`message`] the questions that are asked of bytes alone. No call has a precondition, none but [`report`]
//! allocates, none keeps anything, and tables and states are lent, never copied. What breaks the rules is refused by the number of
//! its question, and a refusal changes nothing. [`matches()`] says whether archive and wrapper belong together.
//!
//! The crate is without std. Its feature `alloc`, which is on by default, has [`report`] and nothing else: without it nothing here
//! allocates.
//!
//! ```
//! use sojimu::{Party, Table, Verdict};
//!
//! let protocol = Table::read(b"rec X.+{!Ask(int[0..100]).&{?Ok().X},!Quit().end}")?;
//! let mut state = protocol.fresh(200)?;
//! let mut out = [0; 300];
//! let message = b"Ask\0\0\0\0\0\x01\0\0\0\0\x64";
//! let verdict = protocol.step(&mut state, Party::Device, message, &mut out);
//! assert_eq!(verdict, Verdict::Forwarded);
//! assert_eq!(&out[..message.len()], message);
//! # Ok::<(), Box<dyn std::error::Error>>(())
//! ```

#![no_std]
#![deny(missing_docs)]
#![deny(unsafe_code)]

#[cfg(feature = "alloc")]
extern crate alloc;

mod batch;
mod codes;
mod conversation;
#[allow(unsafe_code)]
mod ffi;
mod fit;
pub mod message;
mod monitor;
mod question;
mod report;
mod table;
mod version;
mod warning;

pub use batch::Batch;
pub use conversation::{Conversation, Ended, Passed, LONGEST_ENTRY};
pub use fit::{Fitting, LONGEST_LIST};
pub use message::LONGEST_MESSAGE;
pub use monitor::{Due, Party, Reason, Standing, State, Verdict};
pub use question::{Question, Refusal};
#[cfg(feature = "alloc")]
pub use report::report;
pub use report::{report_into, LONGEST_REPORT};
pub use table::{Table, LONGEST_PROTOCOL, MOST_BRANCHES, MOST_FIELDS, MOST_OPEN, MOST_STATES};
pub use version::{matches, version, VERSION};
pub use warning::Warning;
