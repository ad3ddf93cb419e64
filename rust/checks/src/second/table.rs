//! Tables: states and branches, with the shares and the edition of document 02's requests 4 and 7; question 9, the dual, and the
//! raw form in words.

/// The most states of a table.
pub const MOST_STATES: usize = 32;
/// The most branches of a table.
pub const MOST_BRANCHES: usize = 128;
/// The most fields of a branch.
pub const MOST_FIELDS: usize = 4;
/// The most bytes of a text in a message.
pub const LONGEST_TEXT: i64 = 64;
/// What the shares of a choice add to, and the most of one of them, in thousandths.
pub const SHARES: u32 = 1000;
/// The bytes of a label, filled up with 0x00.
pub const LABEL_BYTES: usize = 8;

/// Eight bytes, filled up with 0x00.
pub type Label = [u8; LABEL_BYTES];

/// What a state does, as the device sees it.
#[derive(Clone, Copy, Debug, PartialEq, Eq)]
pub enum Sort {
    End,
    Sends,
    Receives,
}

impl Sort {
    pub fn code(self) -> u8 {
        match self {
            Sort::End => 0,
            Sort::Sends => 1,
            Sort::Receives => 2,
        }
    }

    pub fn of_code(code: u8) -> Option<Sort> {
        match code {
            0 => Some(Sort::End),
            1 => Some(Sort::Sends),
            2 => Some(Sort::Receives),
            _ => None,
        }
    }
}

/// The kind of a field.
#[derive(Clone, Copy, Debug, PartialEq, Eq)]
pub enum Kind {
    Int,
    Text,
    Flag,
}

impl Kind {
    pub fn code(self) -> u8 {
        match self {
            Kind::Int => 0,
            Kind::Text => 1,
            Kind::Flag => 2,
        }
    }

    pub fn of_code(code: u8) -> Option<Kind> {
        match code {
            0 => Some(Kind::Int),
            1 => Some(Kind::Text),
            2 => Some(Kind::Flag),
            _ => None,
        }
    }

    /// "The number of a field is the value of an int (signed 32-bit), the length in bytes of a text (0 to 64), or 0 or 1 for
    /// a flag."
    pub fn holds(self, number: i64) -> bool {
        match self {
            Kind::Int => i32::try_from(number).is_ok(),
            Kind::Text => (0..=LONGEST_TEXT).contains(&number),
            Kind::Flag => number == 0 || number == 1,
        }
    }
}

/// A field: its kind and the range of its number.
#[derive(Clone, Copy, Debug, PartialEq, Eq)]
pub struct Field {
    pub kind: Kind,
    pub low: i64,
    pub high: i64,
}

impl Field {
    /// Is the number within the range?
    pub fn holds(&self, number: i64) -> bool {
        self.low <= number && number <= self.high
    }

    /// Does this range contain the other's?
    pub fn contains(&self, other: &Field) -> bool {
        self.low <= other.low && other.high <= self.high
    }
}

/// A branch of a choice.
#[derive(Clone, Debug, PartialEq, Eq)]
pub struct Branch {
    pub owner: usize,
    pub label: Label,
    pub fields: Vec<Field>,
    /// "After `)` a branch may carry `@` and a share in thousandths."
    pub share: Option<u32>,
    pub target: usize,
}

impl Branch {
    pub fn kinds(&self) -> impl Iterator<Item = Kind> + '_ {
        self.fields.iter().map(|field| field.kind)
    }

    /// "A branch of the same label and kinds" as the other.
    pub fn alike(&self, other: &Branch) -> bool {
        self.label == other.label && self.kinds().eq(other.kinds())
    }

    /// "Whose ranges contain its own": asked of branches of the same kinds.
    pub fn contains(&self, other: &Branch) -> bool {
        self.fields.iter().zip(&other.fields).all(|(mine, its)| mine.contains(its))
    }
}

/// A table: its states by number, its branches by number. It may be unsound; the empty table is.
#[derive(Clone, Debug, Default, PartialEq, Eq)]
pub struct Table {
    pub states: Vec<Sort>,
    pub branches: Vec<Branch>,
    /// 1 or 2 where the table is sound.
    pub edition: u32,
}

impl Table {
    pub fn empty() -> Table {
        Table::default()
    }

    /// The numbers of a state's branches.
    pub fn branches_of(&self, state: usize) -> Vec<usize> {
        (0..self.branches.len()).filter(|&branch| self.branches[branch].owner == state).collect()
    }
}

/// "A name or label is A-Z followed by A-Z, a-z, 0-9, one to eight bytes in all", filled up with 0x00.
pub fn legal_label(label: &Label) -> bool {
    let length = label.iter().position(|&byte| byte == 0).unwrap_or(LABEL_BYTES);
    let (name, filling) = label.split_at(length);
    length >= 1
        && name[0].is_ascii_uppercase()
        && name.iter().all(|byte| byte.is_ascii_alphanumeric())
        && filling.iter().all(|&byte| byte == 0)
}

/// Question 9 without a position: is the table sound?
pub fn sound(table: &Table) -> bool {
    let states = table.states.len();
    // "9 asks that a table's edition be 1 or 2."
    (table.edition == 1 || table.edition == 2)
        && (1..=MOST_STATES).contains(&states)
        && table.branches.len() <= MOST_BRANCHES
        && (0..states).all(|state| owns_rightly(table, state) && labels_differ(table, state) && shares_right(table, state))
        && table.branches.iter().all(|branch| {
            legal_label(&branch.label) && fields_legal(&branch.fields) && branch.owner < states && branch.target < states
        })
}

/// "An end owns no branch and a choice at least one."
fn owns_rightly(table: &Table, state: usize) -> bool {
    table.branches_of(state).is_empty() == (table.states[state] == Sort::End)
}

/// "Labels … differ within a state."
fn labels_differ(table: &Table, state: usize) -> bool {
    let mut met: Vec<Label> = Vec::new();
    for branch in table.branches_of(state) {
        let label = table.branches[branch].label;
        if met.contains(&label) {
            return false;
        }
        met.push(label);
    }
    true
}

/// Question 9 "now also asks that a table's shares keep these rules": each is 1 to 1000 (19), and no choice "mixes branches with
/// and without shares" or has shares that "don't add to 1000" (20).
fn shares_right(table: &Table, state: usize) -> bool {
    let shares: Vec<Option<u32>> = table.branches_of(state).into_iter().map(|b| table.branches[b].share).collect();
    shares.iter().flatten().all(|share| (1..=SHARES).contains(share)) && choice_right(&shares)
}

/// Has no branch of a choice a share, or each one, and do they add to 1000?
pub fn choice_right(shares: &[Option<u32>]) -> bool {
    if shares.iter().all(Option::is_none) {
        return true;
    }
    let sum: u64 = shares.iter().flatten().map(|&share| u64::from(share)).sum();
    shares.iter().all(Option::is_some) && sum == u64::from(SHARES)
}

/// "Fields keep the limits above and no range is empty."
fn fields_legal(fields: &[Field]) -> bool {
    fields.len() <= MOST_FIELDS
        && fields.iter().all(|field| field.kind.holds(field.low) && field.kind.holds(field.high) && field.low <= field.high)
}

/// Question 9 with a position: "Is the table sound, and a position given with it one of its states?"
pub fn sound_at(table: &Table, position: usize) -> bool {
    sound(table) && position < table.states.len()
}

/// "The dual exchanges sending and receiving." It asks 9.
pub fn dual(table: &Table) -> Result<Table, u8> {
    if !sound(table) {
        return Err(9);
    }
    let exchanged = |&sort: &Sort| match sort {
        Sort::End => Sort::End,
        Sort::Sends => Sort::Receives,
        Sort::Receives => Sort::Sends,
    };
    Ok(Table { states: table.states.iter().map(exchanged).collect(), ..table.clone() })
}

/// A table as a plain struct of words in columns, as it crosses a C boundary.
///
/// State s has its sort at s (0 end, 1 sends, 2 receives). Branch b has its owner, target, field count, label (eight bytes, high
/// byte first, in two words) and share (0 for none) at b; field f of branch b stands at 4b + f: its kind (0 int, 1 text, 2 flag),
/// and low and high as the value plus 2^31. Entries beyond the counts mean nothing, and the reserved word never does.
#[repr(C)]
#[derive(Clone, Debug, PartialEq, Eq)]
pub struct Raw {
    pub states: u32,
    pub branches: u32,
    pub sort: [u32; MOST_STATES],
    pub owner: [u32; MOST_BRANCHES],
    pub target: [u32; MOST_BRANCHES],
    pub fields: [u32; MOST_BRANCHES],
    pub label_high: [u32; MOST_BRANCHES],
    pub label_low: [u32; MOST_BRANCHES],
    pub kind: [u32; MOST_FIELDS * MOST_BRANCHES],
    pub low: [u32; MOST_FIELDS * MOST_BRANCHES],
    pub high: [u32; MOST_FIELDS * MOST_BRANCHES],
    pub share: [u32; MOST_BRANCHES],
    pub edition: u32,
    pub reserved: u32,
}

impl Raw {
    /// The empty table: every word zero.
    pub fn empty() -> Raw {
        Raw {
            states: 0,
            branches: 0,
            sort: [0; MOST_STATES],
            owner: [0; MOST_BRANCHES],
            target: [0; MOST_BRANCHES],
            fields: [0; MOST_BRANCHES],
            label_high: [0; MOST_BRANCHES],
            label_low: [0; MOST_BRANCHES],
            kind: [0; MOST_FIELDS * MOST_BRANCHES],
            low: [0; MOST_FIELDS * MOST_BRANCHES],
            high: [0; MOST_FIELDS * MOST_BRANCHES],
            share: [0; MOST_BRANCHES],
            edition: 0,
            reserved: 0,
        }
    }

    /// A sound table in words, every entry beyond the counts zero. An unsound one gives the empty table.
    pub fn of(table: &Table) -> Raw {
        let mut raw = Raw::empty();
        if !sound(table) {
            return raw;
        }
        raw.states = table.states.len() as u32;
        raw.branches = table.branches.len() as u32;
        raw.edition = table.edition;
        for (state, sort) in table.states.iter().enumerate() {
            raw.sort[state] = sort.code().into();
        }
        for (b, branch) in table.branches.iter().enumerate() {
            raw.owner[b] = branch.owner as u32;
            raw.target[b] = branch.target as u32;
            raw.fields[b] = branch.fields.len() as u32;
            raw.set_label(b, branch.label);
            raw.share[b] = branch.share.unwrap_or(0);
            for (f, field) in branch.fields.iter().enumerate() {
                raw.kind[MOST_FIELDS * b + f] = field.kind.code().into();
                raw.low[MOST_FIELDS * b + f] = offset(field.low);
                raw.high[MOST_FIELDS * b + f] = offset(field.high);
            }
        }
        raw
    }

    /// The label's two words as bytes.
    pub fn label(&self, b: usize) -> Label {
        (u64::from(self.label_high[b]) << 32 | u64::from(self.label_low[b])).to_be_bytes()
    }

    /// The label's bytes in its two words.
    pub fn set_label(&mut self, b: usize, label: Label) {
        let word = u64::from_be_bytes(label);
        self.label_high[b] = (word >> 32) as u32;
        self.label_low[b] = word as u32;
    }

    /// Question 9 of the columns.
    pub fn sound(&self) -> bool {
        self.lists().is_some_and(|table| sound(&table))
    }

    /// Question 9 of the columns, with a position.
    pub fn sound_at(&self, position: usize) -> bool {
        self.lists().is_some_and(|table| sound_at(&table, position))
    }

    /// The table that the columns mean. Columns that are not sound mean the empty table, which every entry refuses by 9.
    pub fn table(&self) -> Table {
        match self.lists() {
            Some(table) if sound(&table) => table,
            _ => Table::empty(),
        }
    }

    /// The dual in columns: the question that got a no, or 0, and the table.
    pub fn dual(&self) -> (u8, Raw) {
        match dual(&self.table()) {
            Ok(table) => (0, Raw::of(&table)),
            Err(question) => (question, Raw::empty()),
        }
    }

    /// The columns as lists, sound or not; none when a count passes its column or a code is unknown.
    fn lists(&self) -> Option<Table> {
        let states = self.sort.get(..index(self.states))?;
        let branches = index(self.branches);
        if branches > MOST_BRANCHES {
            return None;
        }
        Some(Table {
            states: states.iter().map(|&word| Sort::of_code(byte(word)?)).collect::<Option<_>>()?,
            branches: (0..branches).map(|b| self.branch(b)).collect::<Option<_>>()?,
            edition: self.edition,
        })
    }

    fn branch(&self, b: usize) -> Option<Branch> {
        let count = index(self.fields[b]);
        if count > MOST_FIELDS {
            return None;
        }
        let field = |f: usize| {
            Some(Field {
                kind: Kind::of_code(byte(self.kind[MOST_FIELDS * b + f])?)?,
                low: value(self.low[MOST_FIELDS * b + f]),
                high: value(self.high[MOST_FIELDS * b + f]),
            })
        };
        Some(Branch {
            owner: index(self.owner[b]),
            label: self.label(b),
            fields: (0..count).map(field).collect::<Option<_>>()?,
            share: (self.share[b] != 0).then_some(self.share[b]),
            target: index(self.target[b]),
        })
    }
}

/// A word as a count or a number of a state.
fn index(word: u32) -> usize {
    word as usize
}

/// A word as a code, which is a byte.
fn byte(word: u32) -> Option<u8> {
    u8::try_from(word).ok()
}

/// The value plus 2^31, for values of 32 bits.
fn offset(value: i64) -> u32 {
    (value + (1 << 31)) as u32
}

/// The value of a number in offset form.
fn value(offset: u32) -> i64 {
    i64::from(offset) - (1 << 31)
}
