//! Protocol texts: tokens, grammar, and questions 1 to 8 in the order of the document, 5 as request 1 of document 02 amends it;
//! with the shares of its request 4, and 19 and 20; and the editions of its request 7, and 23.

use super::table::{
    choice_right, Branch, Field, Kind, Label, Sort, Table, LABEL_BYTES, MOST_BRANCHES, MOST_FIELDS, MOST_STATES, SHARES,
};

/// The most bytes of a text.
pub const LONGEST_PROTOCOL: usize = 8192;
/// The most choices and `rec`s open around one another.
pub const MOST_OPEN: usize = 16;

/// The question that got a no, and the place of its token.
pub type Refusal = (u8, usize);

/// Reads a protocol text. A refusal stands for the empty table.
pub fn read(text: &[u8]) -> Result<Table, Refusal> {
    if text.len() > LONGEST_PROTOCOL {
        return Err((1, 0));
    }
    let mut reader = Reader { text, at: 0, table: Table::empty(), recs: Vec::new(), choices: 0 };
    reader.opening()?;
    match reader.token()? {
        (Token::EndOfText, _) => Ok(reader.table),
        (_, place) => Err((3, place)),
    }
}

#[derive(Clone, Copy, PartialEq, Eq)]
enum Token<'a> {
    /// `edition end rec int text flag`
    Word(&'a [u8]),
    /// A name or a label.
    Name(Label),
    Number {
        negative: bool,
        digits: &'a [u8],
    },
    /// `.`
    Dot,
    /// `..`
    Dots,
    /// One of `+ & { } ( ) [ ] , ! ? @`
    Sign(u8),
    EndOfText,
}

/// A `rec` around a place.
struct Rec {
    name: Label,
    /// The first state of its body.
    first: usize,
    /// How many choices stand around the `rec` itself.
    choices: usize,
}

struct Reader<'a> {
    text: &'a [u8],
    /// Where the next token, or blanks before it, begins.
    at: usize,
    table: Table,
    /// The `rec`s around this place, innermost last.
    recs: Vec<Rec>,
    /// How many choices stand around this place.
    choices: usize,
}

impl<'a> Reader<'a> {
    /// The next token and its place; asks 2.
    fn token(&mut self) -> Result<(Token<'a>, usize), Refusal> {
        while self.at < self.text.len() && matches!(self.text[self.at], 0x20 | 0x0A) {
            self.at += 1;
        }
        let place = self.at;
        let Some(&first) = self.text.get(place) else {
            return Ok((Token::EndOfText, place));
        };
        let token = match first {
            b'A'..=b'Z' => named(self.run(u8::is_ascii_alphanumeric)),
            b'a'..=b'z' => worded(self.run(u8::is_ascii_alphanumeric)),
            b'0'..=b'9' => numbered(false, self.run(u8::is_ascii_digit)),
            b'-' => {
                self.at += 1;
                numbered(true, self.run(u8::is_ascii_digit))
            }
            b'.' => match self.run(|&byte| byte == b'.').len() {
                1 => Some(Token::Dot),
                2 => Some(Token::Dots),
                _ => None,
            },
            b'+' | b'&' | b'{' | b'}' | b'(' | b')' | b'[' | b']' | b',' | b'!' | b'?' | b'@' => {
                self.at += 1;
                Some(Token::Sign(first))
            }
            _ => None,
        };
        match token {
            Some(token) => Ok((token, place)),
            None => Err((2, place)),
        }
    }

    /// The longest run of such bytes from here on.
    fn run(&mut self, such: impl Fn(&u8) -> bool) -> &'a [u8] {
        let rest = &self.text[self.at..];
        let length = rest.iter().position(|byte| !such(byte)).unwrap_or(rest.len());
        self.at += length;
        &rest[..length]
    }

    /// The next token, which the grammar wants to be this one; asks 2 and 3.
    fn expect(&mut self, wanted: Token) -> Result<(), Refusal> {
        match self.token()? {
            (token, _) if token == wanted => Ok(()),
            (_, place) => Err((3, place)),
        }
    }

    /// A name or a label and its place; asks 2 and 3.
    fn expect_name(&mut self) -> Result<(Label, usize), Refusal> {
        match self.token()? {
            (Token::Name(name), place) => Ok((name, place)),
            (_, place) => Err((3, place)),
        }
    }

    /// "A text may open with the word `edition` and 1 or 2; without it the edition is 1." Then comes the text's type.
    fn opening(&mut self) -> Result<usize, Refusal> {
        let (token, place) = self.token()?;
        if token != Token::Word(b"edition") {
            self.table.edition = 1;
            return self.type_from(token, place);
        }
        self.table.edition = self.edition()?;
        self.read_type()
    }

    /// The number after the word; asks 2, 3 and "23 at any other edition number, after 3".
    fn edition(&mut self) -> Result<u32, Refusal> {
        match self.token()? {
            (Token::Number { negative, digits }, place) => match value(negative, digits) {
                Some(1) => Ok(1),
                Some(2) => Ok(2),
                _ => Err((23, place)),
            },
            (_, place) => Err((3, place)),
        }
    }

    /// A type. Gives the state that it means.
    fn read_type(&mut self) -> Result<usize, Refusal> {
        let (token, place) = self.token()?;
        self.type_from(token, place)
    }

    /// "type: `end`, or a name, or `rec` name `.` type, or `+{` send branches `}`, or `&{` receive branches `}`." This is its first
    /// token, and where it stands.
    fn type_from(&mut self, token: Token, place: usize) -> Result<usize, Refusal> {
        match token {
            Token::Word(b"end") => self.state(Sort::End, place),
            Token::Name(name) => self.meant(name, place),
            Token::Word(b"rec") => self.rec(place),
            Token::Sign(b'+') => self.choice(Sort::Sends, b'!', place),
            Token::Sign(b'&') => self.choice(Sort::Receives, b'?', place),
            _ => Err((3, place)),
        }
    }

    /// "A name means the first state of the body of the innermost `rec` of that name around it." Asks 4, whether there is one, and 5,
    /// as document 02 has it: "A name after a `rec`'s dot is now accepted when a choice stands between its own binder and it." Of a
    /// name after a branch's dot that choice is the branch's own.
    fn meant(&self, name: Label, place: usize) -> Result<usize, Refusal> {
        let own = self.recs.iter().rev().find(|rec| rec.name == name).ok_or((4, place))?;
        if self.choices == own.choices {
            return Err((5, place));
        }
        Ok(own.first)
    }

    /// What follows `rec`: name `.` type. It makes no state. Where its body is a name, "the `rec` then means the state that the name
    /// means".
    fn rec(&mut self, place: usize) -> Result<usize, Refusal> {
        self.open(place)?;
        let (name, _) = self.expect_name()?;
        self.expect(Token::Dot)?;
        // A name can mean this `rec` only from within a choice in its body, of which the outermost is the next to be numbered.
        self.recs.push(Rec { name, first: self.table.states.len(), choices: self.choices });
        let meant = self.read_type()?;
        self.recs.pop();
        Ok(meant)
    }

    /// Question 8 of the states, "counted at `+`, `&` or `end`", and the number of the new one.
    fn state(&mut self, sort: Sort, place: usize) -> Result<usize, Refusal> {
        if self.table.states.len() == MOST_STATES {
            return Err((8, place));
        }
        self.table.states.push(sort);
        Ok(self.table.states.len() - 1)
    }

    /// Question 8 of "what is open", counted "at `+`, `&` or `rec`".
    fn open(&self, place: usize) -> Result<(), Refusal> {
        if self.choices + self.recs.len() == MOST_OPEN {
            return Err((8, place));
        }
        Ok(())
    }

    /// What follows `+` or `&`: `{`, at least one branch, separated by `,`, and `}`.
    fn choice(&mut self, sort: Sort, mark: u8, place: usize) -> Result<usize, Refusal> {
        self.open(place)?;
        let owner = self.state(sort, place)?;
        self.expect(Token::Sign(b'{'))?;
        self.choices += 1;
        loop {
            self.branch(owner, mark)?;
            match self.token()? {
                (Token::Sign(b','), _) => {}
                (Token::Sign(b'}'), place) => {
                    self.shares_add(owner, place)?;
                    break;
                }
                (_, place) => return Err((3, place)),
            }
        }
        self.choices -= 1;
        Ok(owner)
    }

    /// "20 at a closing brace whose choice mixes branches with and without shares, or whose shares don't add to 1000."
    fn shares_add(&self, owner: usize, brace: usize) -> Result<(), Refusal> {
        let shares: Vec<Option<u32>> = self.table.branches.iter().filter(|b| b.owner == owner).map(|b| b.share).collect();
        choice_right(&shares).then_some(()).ok_or((20, brace))
    }

    /// "send branch: `!` label `(` fields `)` `.` type. A receive branch has `?`." Document 02: "After `)` a branch may carry `@` and
    /// a share in thousandths."
    fn branch(&mut self, owner: usize, mark: u8) -> Result<(), Refusal> {
        match self.token()? {
            (Token::Sign(sign), place) if sign == mark => {
                if self.table.branches.len() == MOST_BRANCHES {
                    return Err((8, place));
                }
            }
            (_, place) => return Err((3, place)),
        }
        let (label, place) = self.expect_name()?;
        if self.table.branches.iter().any(|branch| branch.owner == owner && branch.label == label) {
            return Err((7, place));
        }
        self.expect(Token::Sign(b'('))?;
        let fields = self.fields()?;
        let share = self.share()?;
        let number = self.table.branches.len();
        self.table.branches.push(Branch { owner, label, fields, share, target: 0 });
        self.table.branches[number].target = self.read_type()?;
        Ok(())
    }

    /// `@` and a share, or nothing, and the `.` after it; asks 2, 3 and "19 at a share outside 1 to 1000".
    fn share(&mut self) -> Result<Option<u32>, Refusal> {
        match self.token()? {
            (Token::Dot, _) => return Ok(None),
            (Token::Sign(b'@'), _) => {}
            (_, place) => return Err((3, place)),
        }
        let share = match self.token()? {
            (Token::Number { negative, digits }, place) => match value(negative, digits) {
                Some(share) if (1..=i64::from(SHARES)).contains(&share) => share as u32,
                _ => return Err((19, place)),
            },
            (_, place) => return Err((3, place)),
        };
        self.expect(Token::Dot)?;
        Ok(Some(share))
    }

    /// "fields: none, or one or more separated by `,`", and the `)` after them.
    fn fields(&mut self) -> Result<Vec<Field>, Refusal> {
        let mut fields = Vec::new();
        let (mut token, mut place) = self.token()?;
        if token == Token::Sign(b')') {
            return Ok(fields);
        }
        loop {
            let kind = match token {
                Token::Word(b"int") => Kind::Int,
                Token::Word(b"text") => Kind::Text,
                Token::Word(b"flag") => Kind::Flag,
                _ => return Err((3, place)),
            };
            if fields.len() == MOST_FIELDS {
                return Err((8, place));
            }
            fields.push(self.range(kind)?);
            match self.token()? {
                (Token::Sign(b','), _) => {}
                (Token::Sign(b')'), _) => return Ok(fields),
                (_, place) => return Err((3, place)),
            }
            (token, place) = self.token()?;
        }
    }

    /// "`[` low `..` high `]`" after the kind's word.
    fn range(&mut self, kind: Kind) -> Result<Field, Refusal> {
        self.expect(Token::Sign(b'['))?;
        let (low, _) = self.number(kind)?;
        self.expect(Token::Dots)?;
        let (high, place) = self.number(kind)?;
        if high < low {
            return Err((6, place));
        }
        self.expect(Token::Sign(b']'))?;
        Ok(Field { kind, low, high })
    }

    /// A number within its kind and its place; asks 2, 3 and of 6 "is the number within its kind".
    fn number(&mut self, kind: Kind) -> Result<(i64, usize), Refusal> {
        match self.token()? {
            (Token::Number { negative, digits }, place) => match value(negative, digits) {
                Some(number) if kind.holds(number) => Ok((number, place)),
                _ => Err((6, place)),
            },
            (_, place) => Err((3, place)),
        }
    }
}

/// "A-Z followed by A-Z, a-z, 0-9, one to eight bytes in all."
fn named(run: &[u8]) -> Option<Token<'_>> {
    if run.len() > LABEL_BYTES {
        return None;
    }
    let mut name = [0; LABEL_BYTES];
    name[..run.len()].copy_from_slice(run);
    Some(Token::Name(name))
}

/// "A word that begins in lower case must be one of `end rec int text flag`", and "question 2 knows the word" `edition`.
fn worded(run: &[u8]) -> Option<Token<'_>> {
    matches!(run, b"edition" | b"end" | b"rec" | b"int" | b"text" | b"flag").then_some(Token::Word(run))
}

/// "A number is `0`, or digits without a leading zero, with an optional `-` that may not precede `0`."
fn numbered(negative: bool, digits: &[u8]) -> Option<Token<'_>> {
    let legal = match digits {
        [] => false,
        [b'0'] => !negative,
        [b'0', ..] => false,
        _ => true,
    };
    legal.then_some(Token::Number { negative, digits })
}

/// The value of a number of at most ten digits; a longer one is outside every kind.
fn value(negative: bool, digits: &[u8]) -> Option<i64> {
    if digits.len() > 10 {
        return None;
    }
    let size = digits.iter().fold(0, |size, digit| 10 * size + i64::from(digit - b'0'));
    Some(if negative { -size } else { size })
}
