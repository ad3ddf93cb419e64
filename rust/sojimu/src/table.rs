//! Tables: reading a text, question 9, the dual, and messages made from a branch.

use crate::{codes, ffi, version, Question, Refusal};

/// The most states of a table.
pub const MOST_STATES: usize = 32;
/// The most branches of a table.
pub const MOST_BRANCHES: usize = 128;
/// The most fields of a branch.
pub const MOST_FIELDS: usize = 4;
/// The most choices and `rec`s that stand open around one another in a text.
pub const MOST_OPEN: usize = 16;
/// The most bytes of a protocol text.
pub const LONGEST_PROTOCOL: usize = 8192;

/// A session type as columns of words, 9,360 bytes.
///
/// Any numbers may stand in the columns: every call asks question 9 first, and refuses a table that is not sound. Entries beyond
/// the counts mean nothing, though `==` compares them too. [`Table::read`] gives a sound table, with 0 in all of them.
///
/// ```
/// use sojimu::{message, Table};
///
/// let table = Table::read(b"+{!Quit().end}")?;
/// assert_eq!((table.states, table.branches), (2, 1));
/// assert_eq!(table.label_high[0], u32::from_be_bytes(*b"Quit"));
/// assert_eq!(Some(table.label(0)), message::label("Quit"));
/// # Ok::<(), sojimu::Refusal>(())
/// ```
#[repr(C)]
#[derive(Clone, Debug, PartialEq, Eq, Hash)]
pub struct Table {
    /// How many states there are.
    pub states: u32,
    /// How many branches there are.
    pub branches: u32,
    /// What a state does, as the device sees it: 0 end, 1 sends, 2 receives.
    pub sort: [u32; MOST_STATES],
    /// The state whose branch it is.
    pub owner: [u32; MOST_BRANCHES],
    /// The state that the branch leads to.
    pub target: [u32; MOST_BRANCHES],
    /// How many fields the branch has.
    pub fields: [u32; MOST_BRANCHES],
    /// The label's first four bytes, high byte first. A label is filled up with 0x00.
    pub label_high: [u32; MOST_BRANCHES],
    /// The label's last four bytes.
    pub label_low: [u32; MOST_BRANCHES],
    /// The kind of field f of branch b, at 4b + f: 0 int, 1 text, 2 flag.
    pub kind: [u32; MOST_FIELDS * MOST_BRANCHES],
    /// The least number of the field, plus 2^31.
    pub low: [u32; MOST_FIELDS * MOST_BRANCHES],
    /// The greatest number of the field, plus 2^31.
    pub high: [u32; MOST_FIELDS * MOST_BRANCHES],
    /// The share of the branch in thousandths, 1 to 1000; 0 where it carries none.
    pub share: [u32; MOST_BRANCHES],
    /// The edition of the standard, 1 or 2: under 2 who speaks out of turn is blamed.
    pub edition: u32,
    /// Nothing looks at this.
    pub reserved: u32,
}

impl Table {
    /// The empty table, which is not sound.
    ///
    /// ```
    /// assert!(!sojimu::Table::empty().sound());
    /// ```
    #[inline]
    pub fn empty() -> Table {
        ffi::sojimu_empty()
    }

    /// Reads a protocol text; asks 1 to 8, 19, 20 and 23.
    ///
    /// ```
    /// use sojimu::{Question, Table};
    ///
    /// assert!(Table::read(b"+{!A(int[5..5]).end}").is_ok());
    /// let refusal = Table::read(b"+{!A(int[5..4]).end}").unwrap_err();
    /// assert_eq!((refusal.question, refusal.at), (Question::BAD_RANGE, 12));
    /// ```
    ///
    /// A `rec` with a name after its dot means the state that the name means:
    ///
    /// ```
    /// # use sojimu::Table;
    /// let table = Table::read(b"rec Y.+{!A().rec X.Y}")?;
    /// assert_eq!((table.states, table.branches, table.target[0]), (1, 1, 0));
    /// # Ok::<(), sojimu::Refusal>(())
    /// ```
    ///
    /// The branches of a choice may carry shares, which add to 1000:
    ///
    /// ```
    /// # use sojimu::{Question, Table};
    /// let table = Table::read(b"+{!Knot()@10.end,!Clear()@990.end}")?;
    /// assert_eq!(table.share[..2], [10, 990]);
    /// let refusal = Table::read(b"+{!Knot()@10.end,!Clear().end}").unwrap_err();
    /// assert_eq!((refusal.question, refusal.at), (Question::BAD_SHARES, 29));
    /// # Ok::<(), sojimu::Refusal>(())
    /// ```
    ///
    /// A text may open with its edition, which is 1 where it does not:
    ///
    /// ```
    /// # use sojimu::{Question, Table};
    /// assert_eq!(Table::read(b"edition 2 +{!A().end}")?.edition, 2);
    /// assert_eq!(Table::read(b"+{!A().end}")?.edition, 1);
    /// let refusal = Table::read(b"edition 3 +{!A().end}").unwrap_err();
    /// assert_eq!((refusal.question, refusal.at), (Question::BAD_EDITION, 8));
    /// # Ok::<(), sojimu::Refusal>(())
    /// ```
    #[inline]
    pub fn read(text: &[u8]) -> Result<Table, Refusal> {
        version::meets();
        let reading = ffi::read(text);
        match codes::refusal(reading.question) {
            None => Ok(reading.table),
            Some(question) => Err(Refusal { question, at: reading.at as usize }),
        }
    }

    /// The label of a branch as one number, its eight bytes with the high byte first, as [`message`](crate::message) has it. 0
    /// where the columns have no such entry.
    ///
    /// ```
    /// let table = sojimu::Table::read(b"+{!Quit().end}")?;
    /// assert_eq!(table.label(0).to_be_bytes(), *b"Quit\0\0\0\0");
    /// assert_eq!(table.label(128), 0);
    /// # Ok::<(), sojimu::Refusal>(())
    /// ```
    #[inline]
    pub fn label(&self, branch: usize) -> u64 {
        match (self.label_high.get(branch), self.label_low.get(branch)) {
            (Some(&high), Some(&low)) => u64::from(high) << 32 | u64::from(low),
            _ => 0,
        }
    }

    /// Question 9: is the table sound?
    ///
    /// ```
    /// let mut table = sojimu::Table::read(b"+{!A().end}")?;
    /// assert!(table.sound());
    /// table.target[0] = 2;
    /// assert!(!table.sound());
    /// # Ok::<(), sojimu::Refusal>(())
    /// ```
    #[inline]
    pub fn sound(&self) -> bool {
        ffi::sojimu_sound(self)
    }

    /// Question 9 where a position is given with the table: is it sound, and the position one of its states?
    ///
    /// ```
    /// let table = sojimu::Table::read(b"+{!A().end}")?;
    /// assert!(table.sound_at(1));
    /// assert!(!table.sound_at(2));
    /// # Ok::<(), sojimu::Refusal>(())
    /// ```
    #[inline]
    pub fn sound_at(&self, position: u32) -> bool {
        ffi::sojimu_sound_at(self, position)
    }

    /// The same conversation as the other side sees it, sending and receiving exchanged, under the same edition; asks 9.
    ///
    /// ```
    /// let table = sojimu::Table::read(b"+{!A().end}")?;
    /// let dual = table.dual()?;
    /// assert_eq!(dual.sort[..2], [2, 0]);
    /// assert_eq!(dual.dual()?, table);
    /// # Ok::<(), Box<dyn std::error::Error>>(())
    /// ```
    #[inline]
    pub fn dual(&self) -> Result<Table, Question> {
        let turned = ffi::sojimu_dual(self);
        match codes::refusal(turned.question) {
            None => Ok(turned.table),
            Some(question) => Err(question),
        }
    }

    /// Makes the message of a branch at the start of `out` and gives its length: every number low, or the named field high, texts
    /// filled with spaces. Asks 9, 18 and 16; the rest of `out` is unchanged.
    ///
    /// ```
    /// use sojimu::{Question, Table};
    ///
    /// let table = Table::read(b"+{!Ask(int[0..100]).end}")?;
    /// let mut out = [0xEE; 15];
    /// assert_eq!(table.make(0, Some(0), &mut out), Ok(14));
    /// assert_eq!(&out, b"Ask\0\0\0\0\0\x01\0\0\0\0\x64\xEE");
    /// assert_eq!(table.make(1, None, &mut out), Err(Question::NO_BRANCH));
    /// assert_eq!(table.make(0, None, &mut out[..13]), Err(Question::OUTPUT_TOO_SHORT));
    /// # Ok::<(), sojimu::Refusal>(())
    /// ```
    #[inline]
    pub fn make(&self, branch: u32, high: Option<u32>, out: &mut [u8]) -> Result<usize, Question> {
        let named = match high {
            None => ffi::ALL_LOW,
            // The code of "no field" as a field's number: one that no branch has either.
            Some(ffi::ALL_LOW) => ffi::ALL_LOW + 1,
            Some(field) => field,
        };
        let made = ffi::make(self, branch, named, out);
        match codes::refusal(made.question) {
            None => Ok(made.length as usize),
            Some(question) => Err(question),
        }
    }
}

impl Default for Table {
    fn default() -> Table {
        Table::empty()
    }
}
