//! Devices that do not fit: what was compared of the moves that show it.

use super::Tally;
use crate::second::mistaken::{depth_first, sorts_late};
use crate::second::shortest::{search, Way};
use crate::second::table::Table;

/// A list of so many moves is long.
const LONG: usize = 100;

/// What is counted of them.
#[derive(Clone, Copy, Debug, PartialEq, Eq)]
pub enum Failed {
    /// Lists of no move.
    AtOnce,
    /// Lists of a hundred moves and more.
    Long,
    /// A list of as few moves ends with one that is forwarded, to two states that differ in sort.
    Arrival,
    /// A list of as few moves ends with the device blamed.
    Blame,
    /// A list of as few moves ends with a message that the device does not take.
    NotTaken,
    /// One list of as few moves ends in the first of these ways, another in one of the other two.
    BothWays,
    /// Another list has as few moves.
    Several,
    /// A search that compares sorts when it takes a pair up would show more moves.
    SortsLate,
    /// A search in depth would show more moves.
    DepthFirst,
}

impl Failed {
    /// Each of them in a few letters, in their order.
    pub const ALL: [&str; 9] = [
        "fails, at once",
        "fails, long",
        "fails, arrival",
        "fails, blame",
        "fails, untaken",
        "fails, 2 ways",
        "fails, several",
        "fails, sorts",
        "fails, depth",
    ];
}

/// Counts a pair of sound tables that do not fit.
pub fn count(device: &Table, protocol: &Table, tally: &mut Tally) {
    let found = search(device, protocol);
    let Some((fewest, shown)) = found.fewest().zip(found.shown()) else {
        return;
    };
    let by = |way: Way| found.ways.contains(&way);
    let stops = by(Way::Blame) || by(Way::NotTaken);
    tally.fail(Failed::AtOnce, by(Way::AtOnce));
    tally.fail(Failed::Long, fewest >= LONG);
    tally.fail(Failed::Arrival, by(Way::Arrival));
    tally.fail(Failed::Blame, by(Way::Blame));
    tally.fail(Failed::NotTaken, by(Way::NotTaken));
    tally.fail(Failed::BothWays, by(Way::Arrival) && stops);
    tally.fail(Failed::Several, shown.several);
    tally.fail(Failed::SortsLate, sorts_late(device, protocol) > Some(fewest));
    tally.fail(Failed::DepthFirst, depth_first(device, protocol) > Some(fewest));
}
