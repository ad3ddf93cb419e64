//! Whether a side picks a branch far too often or too seldom for its share, and the estimate of the share.

use crate::{codes, ffi, Party, Question, State, Table};

/// What the counts tell of a branch.
#[derive(Clone, Copy, Debug, PartialEq, Eq, Hash)]
pub struct Warning {
    /// With share w: whether 10,000 x (1,000k - wn)^2 is greater than z^2 x w x (1,000 - w) x n. Without a share, never.
    pub warns: bool,
    /// The side that sends at the branch's choice.
    pub sender: Party,
    /// 1,000k / n to the nearest whole, halves up; none while n is 0.
    pub estimate: Option<u32>,
}

impl Table {
    /// Does a branch warn, in a conversation's state? Asks 9, then 18: does the branch exist?
    ///
    /// ```
    /// use sojimu::{Party, Question, Table, Warning};
    ///
    /// let protocol = Table::read(b"rec X.+{!Knot()@10.X,!Clear()@990.X}")?;
    /// let mut state = protocol.fresh(442)?;
    /// let (knot, clear) = (b"Knot\0\0\0\0\0", b"Clear\0\0\0\0");
    /// for message in [clear, knot, clear, clear, knot, clear] {
    ///     protocol.step(&mut state, Party::Device, message, &mut [0; 9]);
    /// }
    /// assert_eq!((state.n[0], state.k[0]), (6, 2));
    /// let warning = Warning { warns: true, sender: Party::Device, estimate: Some(333) };
    /// assert_eq!(protocol.warning(&state, 0)?, warning);
    /// assert_eq!(protocol.warning(&state, 2), Err(Question::NO_BRANCH));
    /// # Ok::<(), Box<dyn std::error::Error>>(())
    /// ```
    #[inline]
    pub fn warning(&self, state: &State, branch: u32) -> Result<Warning, Question> {
        let ffi::Warning { question, warns, sender, estimate } = ffi::warning(self, state, branch);
        let estimate = (estimate != ffi::NO_ESTIMATE).then_some(estimate);
        match (codes::refusal(question), Party::of(sender)) {
            (None, Some(sender)) => Ok(Warning { warns: warns != 0, sender, estimate }),
            (refusal, _) => Err(refusal.unwrap_or(Question::UNSOUND)),
        }
    }
}
