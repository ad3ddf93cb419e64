//! Whether a side picks one branch far too often or too seldom: document 02, request 4.

use super::monitor::{state_sound, turn, Side, State};
use super::table::Table;

/// "Tells whether it warns, the choice's sender and the estimate."
#[derive(Clone, Copy, Debug, PartialEq, Eq)]
pub struct Told {
    pub warns: bool,
    pub sender: Side,
    pub estimate: Option<u32>,
}

/// The call "on a table, a state and a branch asks 9, then 18 for the branch".
pub fn warning(table: &Table, state: &State, branch: usize) -> Result<Told, u8> {
    if !state_sound(table, state) {
        return Err(9);
    }
    let row = table.branches.get(branch).ok_or(18)?;
    let (n, k) = (i128::from(state.n[row.owner]), i128::from(state.k[branch]));
    let z = i128::from(state.setting);
    let warns = match row.share {
        // "A branch without a share never warns."
        None => false,
        Some(share) => {
            let w = i128::from(share);
            10_000 * (1_000 * k - w * n).pow(2) > z.pow(2) * w * (1_000 - w) * n
        }
    };
    // The owner of a branch of a sound table is a choice.
    let sender = turn(table.states[row.owner]).ok_or(9)?;
    Ok(Told { warns, sender, estimate: estimate(n, k) })
}

/// "The estimate 1,000k / n is shown to the nearest whole, halves up; while n is 0 there is none."
pub fn estimate(n: i128, k: i128) -> Option<u32> {
    if n == 0 {
        return None;
    }
    let (whole, rest) = (1_000 * k / n, 1_000 * k % n);
    Some((if 2 * rest >= n { whole + 1 } else { whole }) as u32)
}
