//! Shares, counts and warnings: what was compared of them.

use super::both::{state, Both};
use super::Tally;
use crate::second::monitor::{GREATEST_SETTING, MOST_COUNTED};
use crate::second::table::{sound_at, SHARES};
use sojimu::{Party, Question, State, Warning};

/// What is counted of them.
#[derive(Clone, Copy, Debug, PartialEq, Eq)]
pub enum Shared {
    /// Texts with shares that are read.
    Read,
    /// Devices that fit, where one of the two tables has shares.
    Fits,
    /// Devices that do not.
    Fails,
    /// Messages forwarded that were counted.
    Rises,
    /// Messages forwarded that were counted as the last of a choice.
    Last,
    /// Messages forwarded at a choice whose n is 10,000, which were not counted.
    Full,
    /// Branches that warn, picked too often.
    Often,
    /// Branches that warn, picked too seldom.
    Seldom,
    /// Branches with a share that do not warn.
    Calm,
    /// Of these, such at the edge.
    Edge,
    /// Branches that warn, with a setting that is a hundredth too small for the edge.
    PastEdge,
    /// Branches without a share, at a choice that was met.
    NoShare,
    /// Branches without an estimate.
    NoEstimate,
    /// Estimates at a half.
    Half,
    /// Warnings of a branch that the device sends.
    Device,
    /// Warnings of a branch that the host sends.
    Host,
    /// Warnings that 18 refused.
    NoBranch,
    /// States that 9 refused for a choice's counts.
    Counts,
    /// States that 9 refused for their setting.
    Setting,
    /// Conversations that began.
    Begun,
    /// Conversations that 9 refused to begin.
    Begun9,
    /// Conversations that 21 refused to begin.
    Begun21,
}

impl Shared {
    /// Each of them in a few letters, in their order.
    pub const ALL: [&str; 22] = [
        "shares, read",
        "shares, fits",
        "shares, fails",
        "counts, rise",
        "counts, last",
        "counts, full",
        "warns, often",
        "warns, seldom",
        "warns not",
        "warns, edge",
        "warns, past",
        "share, none",
        "estimate, none",
        "estimate, half",
        "sender, device",
        "sender, host",
        "warning, 18",
        "9 by counts",
        "9 by setting",
        "begun",
        "begun, by 9",
        "begun, by 21",
    ];
}

/// Counts a state that a question refused, if it was 9, at a position of a sound table.
pub fn count_refused(both: &Both, given: &State, question: Question, tally: &mut Tally) {
    let by_state = question == Question::UNSOUND && sound_at(&both.second, usize::from(given.position));
    let legal = (1..=GREATEST_SETTING).contains(&given.setting.into());
    tally.share(Shared::Counts, by_state && legal);
    tally.share(Shared::Setting, by_state && !legal);
}

/// Counts a message that was forwarded, by the state before it.
pub fn count_forwarded(before: &State, tally: &mut Tally) {
    let n = before.n.get(usize::from(before.position)).map_or(0, |&n| u32::from(n));
    tally.share(Shared::Rises, n < MOST_COUNTED);
    tally.share(Shared::Last, n + 1 == MOST_COUNTED);
    tally.share(Shared::Full, n == MOST_COUNTED);
}

/// Counts what the warning of a branch says.
pub fn count_warning(both: &Both, given: &State, branch: usize, warning: Warning, tally: &mut Tally) {
    let row = &both.second.branches[branch];
    let state = state(given);
    let (n, k, z) = (i128::from(state.n[row.owner]), i128::from(state.k[branch]), i128::from(state.setting));
    tally.share(Shared::NoShare, row.share.is_none() && n > 0);
    tally.share(Shared::NoEstimate, warning.estimate.is_none());
    tally.share(Shared::Half, n > 0 && 2 * (1000 * k % n) == n);
    tally.share(Shared::Device, warning.sender == Party::Device);
    tally.share(Shared::Host, warning.sender == Party::Host);
    if let Some(share) = row.share {
        let (w, all) = (i128::from(share), i128::from(SHARES));
        let left = 10_000 * (all * k - w * n).pow(2);
        let right = |z: i128| z.pow(2) * w * (all - w) * n;
        tally.share(Shared::Often, warning.warns && all * k > w * n);
        tally.share(Shared::Seldom, warning.warns && all * k < w * n);
        tally.share(Shared::Calm, !warning.warns);
        tally.share(Shared::Edge, !warning.warns && left > 0 && left == right(z));
        tally.share(Shared::PastEdge, warning.warns && left == right(z + 1));
    }
}
