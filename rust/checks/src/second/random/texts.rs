//! Texts: legal, nearly legal, and any.

use super::names::{put_name_after_recs, rec_of, NAMES};
use super::{any_opening, damaged_opening, damaged_shares, fields, label, shares, Random};
use crate::second::table::{Kind, Label, MOST_BRANCHES, MOST_FIELDS, MOST_STATES};
use crate::second::text::{LONGEST_PROTOCOL, MOST_OPEN};

/// How far a text grows.
#[derive(Clone, Copy, Debug)]
pub struct Limits {
    pub states: usize,
    pub branches: usize,
    pub fields: usize,
    pub open: usize,
}

impl Limits {
    /// The limits of question 8.
    pub const DOCUMENT: Limits = Limits { states: MOST_STATES, branches: MOST_BRANCHES, fields: MOST_FIELDS, open: MOST_OPEN };

    /// Within the document's limits, small ones more often.
    pub fn any(random: &mut Random) -> Limits {
        if random.one_in(8) {
            return Limits::DOCUMENT;
        }
        Limits {
            states: 1 + random.below(12),
            branches: random.below(16),
            fields: random.below(MOST_FIELDS + 1),
            open: random.below(8),
        }
    }
}

/// The tokens of a text that the grammar and questions 2 to 7, 19, 20 and 23 allow, and 8 as well when the limits are the document's
/// or less. It opens with either edition or none. One choice in three has shares.
pub fn tokens(random: &mut Random, limits: Limits) -> Vec<Vec<u8>> {
    let tokens = any_opening(random);
    let mut growth = Growth {
        random,
        limits,
        tokens,
        bound: Vec::new(),
        choices: 0,
        states_left: limits.states.max(1) - 1,
        branches_left: limits.branches,
    };
    growth.grow(true);
    growth.tokens
}

/// A text that grows from the left. Each type that is to come has one state promised to it, so that it can always be an `end`;
/// a type that becomes a name gives the promise back.
struct Growth<'a> {
    random: &'a mut Random,
    limits: Limits,
    tokens: Vec<Vec<u8>>,
    /// The names of the `rec`s around, each with how many choices are around it.
    bound: Vec<(Vec<u8>, usize)>,
    choices: usize,
    states_left: usize,
    branches_left: usize,
}

impl Growth<'_> {
    fn put(&mut self, token: &[u8]) {
        self.tokens.push(token.to_vec());
    }

    /// How many choices and `rec`s may still be opened.
    fn room(&self) -> usize {
        self.limits.open.saturating_sub(self.choices + self.bound.len())
    }

    fn grow(&mut self, at_start: bool) {
        let may_open = self.room() > 0;
        let may_choose = may_open && self.branches_left > 0 && (self.states_left > 0 || !self.bound.is_empty());
        let wish = if at_start { self.random.below(7) } else { self.random.below(10) };
        match wish {
            0..=4 if may_choose => self.choice(),
            5 | 6 if may_open => self.rec(),
            7 | 8 if !self.names().is_empty() => {
                self.states_left += 1;
                self.name();
            }
            _ => self.put(b"end"),
        }
    }

    /// The names that may stand here: those with a choice inside the innermost `rec` of that name.
    fn names(&self) -> Vec<Vec<u8>> {
        let mut names = Vec::new();
        let mut hidden: Vec<&[u8]> = Vec::new();
        for (name, choices) in self.bound.iter().rev() {
            if *choices < self.choices && !hidden.contains(&name.as_slice()) {
                names.push(name.clone());
            }
            hidden.push(name);
        }
        names
    }

    /// A name that may stand here, at times after `rec`s of other names: a few, or as many as may be open.
    fn name(&mut self) {
        let name = self.random.pick(&self.names()).clone();
        let recs = match self.random.below(12) {
            0 => MOST_OPEN,
            1..=3 => 1 + self.random.below(3),
            _ => 0,
        };
        let others: Vec<&[u8]> = NAMES.into_iter().filter(|other| *other != name).collect();
        for _ in 0..recs.min(self.room()) {
            let other: &&[u8] = self.random.pick(&others);
            self.tokens.extend(rec_of(other));
        }
        self.put(&name);
    }

    fn rec(&mut self) {
        let name = self.random.pick(&NAMES).to_vec();
        self.tokens.extend(rec_of(&name));
        self.bound.push((name, self.choices));
        self.grow(false);
        self.bound.pop();
    }

    /// Of each branch of a choice: is its type promised a state, or is it to be a name?
    fn promises(&mut self) -> Vec<bool> {
        let wished = if self.random.one_in(12) { 1 + self.random.below(MOST_BRANCHES + 1) } else { 1 + self.random.below(4) };
        let mut promised = Vec::new();
        while promised.len() < wished && self.branches_left > 0 {
            let promise = self.states_left > 0 && (self.bound.is_empty() || !self.random.one_in(3));
            if !promise && self.bound.is_empty() {
                break;
            }
            if promise {
                self.states_left -= 1;
            }
            self.branches_left -= 1;
            promised.push(promise);
        }
        promised
    }

    fn choice(&mut self) {
        let promised = self.promises();
        let (sign, mark): (&[u8], &[u8]) = if self.random.one_in(2) { (b"+", b"!") } else { (b"&", b"?") };
        self.put(sign);
        self.put(b"{");
        self.choices += 1;
        let shares = if self.random.one_in(3) { shares(self.random, promised.len()) } else { Vec::new() };
        let mut labels = Vec::new();
        for (i, promise) in promised.into_iter().enumerate() {
            if i > 0 {
                self.put(b",");
            }
            let label = label(self.random, &labels);
            labels.push(label);
            self.put(mark);
            self.put(&name_of(&label));
            self.fields();
            if let Some(share) = shares.get(i) {
                self.put(b"@");
                self.put(share.to_string().as_bytes());
            }
            self.put(b".");
            if promise {
                self.grow(false);
            } else {
                self.name();
            }
        }
        self.choices -= 1;
        self.put(b"}");
    }

    fn fields(&mut self) {
        self.put(b"(");
        for (i, field) in fields(self.random, self.limits.fields).iter().enumerate() {
            if i > 0 {
                self.put(b",");
            }
            self.put(match field.kind {
                Kind::Int => b"int",
                Kind::Text => b"text",
                Kind::Flag => b"flag",
            });
            self.put(b"[");
            self.put(field.low.to_string().as_bytes());
            self.put(b"..");
            self.put(field.high.to_string().as_bytes());
            self.put(b"]");
        }
        self.put(b")");
    }
}

/// Tokens as a text, blanks before, between and after them at times, and where two words would run together; between a number and a
/// word, which do not, half of the time. The meaning of the text does not depend on the blanks.
pub fn joined(random: &mut Random, tokens: &[Vec<u8>]) -> Vec<u8> {
    let often = *random.pick(&[0, 0, 20, 2]);
    let mut text: Vec<u8> = Vec::new();
    let mut number = false;
    for token in tokens {
        let word = |byte: Option<&u8>| byte.is_some_and(|byte| byte.is_ascii_alphanumeric());
        let apart = number && token.first().is_some_and(u8::is_ascii_alphabetic);
        if word(text.last()) && word(token.first()) && !(apart && random.one_in(2)) {
            text.push(b' ');
        }
        number = token.iter().all(u8::is_ascii_digit);
        if often > 0 && random.one_in(often) {
            blanks(random, &mut text);
        }
        text.extend(token);
    }
    if often > 0 && random.one_in(often) {
        blanks(random, &mut text);
    }
    text
}

fn blanks(random: &mut Random, text: &mut Vec<u8>) {
    for _ in 0..1 + random.below(3) {
        text.push(*random.pick(b"  \n"));
    }
}

/// A legal text: it is read.
pub fn legal_text(random: &mut Random) -> Vec<u8> {
    loop {
        let limits = Limits::any(random);
        let tokens = tokens(random, limits);
        let text = joined(random, &tokens);
        if text.len() <= LONGEST_PROTOCOL {
            return text;
        }
    }
}

/// Tokens to put in a text's way: every sign and word, names, numbers at the ends of the kinds, and malformed ones.
pub(super) const STRANGE_TOKENS: [&[u8]; 71] = [
    b"+",
    b"&",
    b"{",
    b"}",
    b"(",
    b")",
    b"[",
    b"]",
    b",",
    b"!",
    b"?",
    b"@",
    b".",
    b"..",
    b"...",
    b"....",
    b"edition",
    b"edition1",
    b"editions",
    b"Edition",
    b"end",
    b"rec",
    b"int",
    b"text",
    b"flag",
    b"X",
    b"Y",
    b"Z",
    b"A",
    b"B",
    b"Ask",
    b"Abcdefgh",
    b"Abcdefghi",
    b"ends",
    b"in",
    b"x",
    b"end1",
    b"0",
    b"1",
    b"2",
    b"5",
    b"-1",
    b"-5",
    b"64",
    b"65",
    b"100",
    b"999",
    b"1000",
    b"1001",
    b"2147483647",
    b"2147483648",
    b"-2147483648",
    b"-2147483649",
    b"4294967296",
    b"18446744073709551616",
    b"00",
    b"01",
    b"05",
    b"-0",
    b"-",
    b"--1",
    b"5A",
    b"-5A",
    b"#",
    b"\t",
    b"\r",
    b"\0",
    b"_",
    b"\x80",
    b"\xFF",
    b"",
];

/// Bytes that mean something in a text, or nearly.
const TELLING_BYTES: &[u8] = b"+&{}()[],!?@..--00129AZaz \n\t#endrcitoxflgXYB_\0\x7F\x80\xFF";

/// A text that is legal but for one change (which may leave it legal): a byte changed, dropped, inserted or doubled; a token
/// replaced by any or by one of its class, dropped, inserted, doubled, or exchanged with another; a type replaced by a name after
/// `rec`s; a share or the opening changed; cut off; grown beyond the limits; or filled up with blanks to about 8,192 bytes.
pub fn nearly_legal_text(random: &mut Random) -> Vec<u8> {
    let limits = Limits::any(random);
    let mut tokens = tokens(random, limits);
    let place = random.below(tokens.len());
    match random.below(21) {
        0 | 1 => tokens[place] = random.pick(&STRANGE_TOKENS).to_vec(),
        2 | 13 => put_name_after_recs(random, &mut tokens),
        9..=12 => replace_by_its_class(random, &mut tokens),
        14..=16 => damaged_shares(random, &mut tokens),
        17 | 18 => damaged_opening(random, &mut tokens),
        3 => {
            tokens.remove(place);
        }
        4 => tokens.insert(place, random.pick(&STRANGE_TOKENS).to_vec()),
        5 => tokens.insert(place, tokens[place].clone()),
        6 => {
            let other = random.below(tokens.len());
            tokens.swap(place, other);
        }
        7 => return beyond_limits(random),
        8 => {
            let mut text = joined(random, &tokens);
            let wanted = LONGEST_PROTOCOL - 2 + random.below(5);
            let blanks = vec![b' '; wanted.saturating_sub(text.len())];
            let at = *random.pick(&[0, text.len()]);
            text.splice(at..at, blanks);
            return text;
        }
        _ => {
            let text = joined(random, &tokens);
            return damaged_text(random, &text);
        }
    }
    joined(random, &tokens)
}

/// A number replaced by a number near the ends of the kinds, or a name or label by another of the text: questions 4, 6 and 7.
fn replace_by_its_class(random: &mut Random, tokens: &mut [Vec<u8>]) {
    let number = |token: &Vec<u8>| token.first().is_some_and(|&byte| byte.is_ascii_digit() || byte == b'-');
    let name = |token: &Vec<u8>| token.first().is_some_and(u8::is_ascii_uppercase);
    let numbers: Vec<usize> = (0..tokens.len()).filter(|&place| number(&tokens[place])).collect();
    let names: Vec<usize> = (0..tokens.len()).filter(|&place| name(&tokens[place])).collect();
    if !numbers.is_empty() && random.one_in(2) {
        let strange: Vec<&[u8]> =
            STRANGE_TOKENS.into_iter().filter(|token| token.last().is_some_and(u8::is_ascii_digit)).collect();
        tokens[*random.pick(&numbers)] = random.pick(&strange).to_vec();
    } else if !names.is_empty() {
        let (to, from) = (*random.pick(&names), *random.pick(&names));
        tokens[to] = tokens[from].clone();
    }
}

/// A text that may pass one of the limits of question 8 by a little.
fn beyond_limits(random: &mut Random) -> Vec<u8> {
    let mut limits = Limits::DOCUMENT;
    match random.below(4) {
        0 => limits.states += 2,
        1 => limits.branches += 2,
        2 => limits.fields += 1,
        _ => limits.open += 2,
    }
    let tokens = if random.one_in(3) { deep(random, limits.open) } else { tokens(random, limits) };
    joined(random, &tokens)
}

/// Choices and `rec`s around one another, so many, and an `end` or a name within.
fn deep(random: &mut Random, open: usize) -> Vec<Vec<u8>> {
    let mut before: Vec<&[u8]> = Vec::new();
    let mut after: Vec<&[u8]> = Vec::new();
    for _ in 0..open {
        match random.below(4) {
            0 => before.extend([b"rec".as_slice(), b"X", b"."]),
            1 => before.extend([b"rec".as_slice(), b"Y", b"."]),
            2 => {
                before.extend([b"+".as_slice(), b"{", b"!", b"A", b"(", b")", b"."]);
                after.push(b"}");
            }
            _ => {
                before.extend([b"&".as_slice(), b"{", b"?", b"A", b"(", b")", b"."]);
                after.push(b"}");
            }
        }
    }
    before.push(*random.pick::<&[u8]>(&[b"end", b"X", b"Y"]));
    before.into_iter().chain(after).map(<[u8]>::to_vec).collect()
}

/// A text with one byte changed, dropped, inserted or doubled, or cut off.
pub fn damaged_text(random: &mut Random, text: &[u8]) -> Vec<u8> {
    let mut text = text.to_vec();
    if text.is_empty() {
        return text;
    }
    let place = random.below(text.len());
    let telling = if random.one_in(5) { random.byte() } else { *random.pick(TELLING_BYTES) };
    match random.below(5) {
        0 => text[place] = telling,
        1 => {
            text.remove(place);
        }
        2 => text.insert(place, telling),
        3 => text.insert(place, text[place]),
        _ => text.truncate(place),
    }
    text
}

/// A text of any sort: legal, nearly legal, tokens in any order, bytes that mean something, any bytes.
pub fn any_text(random: &mut Random) -> Vec<u8> {
    match random.below(10) {
        0..=2 => legal_text(random),
        3..=7 => nearly_legal_text(random),
        8 => {
            let count = random.below(30);
            let tokens: Vec<Vec<u8>> = (0..count).map(|_| random.pick(&STRANGE_TOKENS).to_vec()).collect();
            joined(random, &tokens)
        }
        _ => {
            let count = random.below(30);
            let any = random.one_in(2);
            (0..count).map(|_| if any { random.byte() } else { *random.pick(TELLING_BYTES) }).collect()
        }
    }
}

fn name_of(label: &Label) -> Vec<u8> {
    label.iter().copied().take_while(|&byte| byte != 0).collect()
}
