//! The fit check.

use crate::{codes, ffi, Question, Table, MOST_STATES};

/// A list of so many entries is long enough for every two tables.
pub const LONGEST_LIST: usize = MOST_STATES * MOST_STATES;

/// What the fit check says of a device and a protocol.
#[derive(Clone, Copy, Debug, PartialEq, Eq, Hash)]
pub enum Fitting {
    /// A question got a no: 9 of either table, or 17.
    Refused(Question),
    /// The device fits: it is never blamed, and never jammed with the protocol.
    Fits {
        /// The pairs of states that can be reached, (0, 0) among them.
        pairs: usize,
    },
    /// It does not: after these moves the device is blamed, or the two are jammed. They are a shortest such list: every list of
    /// moves that ends so has at least as many, moves that change nothing included.
    Fails {
        /// How many moves stand in the list: branches of whose turn it is, the device's of its own table, the host's of the
        /// protocol's. Every number is low.
        moves: usize,
        /// The field that is high in the last move, if one is.
        high: Option<u32>,
    },
}

impl Table {
    /// Does this device fit the protocol? Asks 9 of both, then 17: the list needs device states times protocol states entries.
    /// Where it does not fit, the first entries of the list become the fewest moves that show it, for the same tables the same;
    /// else the list is unchanged. The conversation is held under the protocol's edition, whatever the device's is; the answer is
    /// the same under both.
    ///
    /// ```
    /// use sojimu::{Fitting, Table};
    ///
    /// let protocol = Table::read(b"rec X.+{!Ping().&{?Pong().X},!Quit().end}")?;
    /// let mut list = [0; sojimu::LONGEST_LIST];
    /// let quits = Table::read(b"+{!Quit().end}")?;
    /// assert_eq!(quits.fit(&protocol, &mut list), Fitting::Fits { pairs: 2 });
    /// let other = Table::read(b"+{!Ping().&{?Busy().end}}")?;
    /// assert_eq!(other.fit(&protocol, &mut list), Fitting::Fails { moves: 2, high: None });
    /// assert_eq!(list[..2], [0, 1]);
    /// # Ok::<(), sojimu::Refusal>(())
    /// ```
    #[inline]
    pub fn fit(&self, protocol: &Table, list: &mut [u16]) -> Fitting {
        codes::fitting(ffi::fit(self, protocol, list))
    }
}
