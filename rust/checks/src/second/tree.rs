//! The types of a text as a tree, and what is open around each of them.
//!
//! No question is asked here. The tokens are those of a text that the grammar allows; where they break off, the tree has what is
//! whole. The edition that a text opens with stands before its tree.

use super::table::Sort;
use std::ops::Range;

/// A type and the numbers of its tokens.
#[derive(Clone, Debug, PartialEq, Eq)]
pub struct Type {
    pub tokens: Range<usize>,
    pub form: Form,
}

#[derive(Clone, Debug, PartialEq, Eq)]
pub enum Form {
    End,
    Name(Vec<u8>),
    Rec(Vec<u8>, Box<Type>),
    Choice(Sort, Vec<Branch>),
}

#[derive(Clone, Debug, PartialEq, Eq)]
pub struct Branch {
    pub label: Vec<u8>,
    /// How many fields it has.
    pub fields: usize,
    pub then: Type,
}

/// The tokens of a text whose tokens are well formed.
pub fn split(text: &[u8]) -> Vec<Vec<u8>> {
    let goes_on = |token: &[u8], byte: u8| match token[0] {
        b'.' => byte == b'.',
        b'-' | b'0'..=b'9' => byte.is_ascii_digit(),
        first => first.is_ascii_alphabetic() && byte.is_ascii_alphanumeric(),
    };
    let mut tokens: Vec<Vec<u8>> = Vec::new();
    let mut apart = true;
    for &byte in text {
        let blank = matches!(byte, b' ' | b'\n');
        match tokens.last_mut() {
            Some(token) if !apart && goes_on(token, byte) => token.push(byte),
            _ if !blank => tokens.push(vec![byte]),
            _ => {}
        }
        apart = blank;
    }
    tokens
}

/// How many tokens the edition takes that a text opens with: two, or none where it opens with none.
pub fn opening(tokens: &[Vec<u8>]) -> usize {
    match tokens.first() {
        Some(word) if word == b"edition" => tokens.len().min(2),
        _ => 0,
    }
}

/// The tree of a text's tokens; none where they break off before a type is there.
pub fn tree(tokens: &[Vec<u8>]) -> Option<Type> {
    Tokens { tokens, at: opening(tokens) }.read_type()
}

struct Tokens<'a> {
    tokens: &'a [Vec<u8>],
    at: usize,
}

impl<'a> Tokens<'a> {
    fn next(&mut self) -> Option<&'a [u8]> {
        let token = self.tokens.get(self.at)?;
        self.at += 1;
        Some(token)
    }

    fn read_type(&mut self) -> Option<Type> {
        let start = self.at;
        let form = match self.next()? {
            b"end" => Form::End,
            b"+" => Form::Choice(Sort::Sends, self.branches()),
            b"&" => Form::Choice(Sort::Receives, self.branches()),
            b"rec" => {
                let name = self.next()?.to_vec();
                self.next()?;
                Form::Rec(name, Box::new(self.read_type()?))
            }
            name => Form::Name(name.to_vec()),
        };
        Some(Type { tokens: start..self.at, form })
    }

    fn branches(&mut self) -> Vec<Branch> {
        self.next();
        let mut branches = Vec::new();
        while let Some(branch) = self.branch() {
            branches.push(branch);
            if self.next() != Some(b",") {
                break;
            }
        }
        branches
    }

    fn branch(&mut self) -> Option<Branch> {
        self.next()?;
        let label = self.next()?.to_vec();
        let mut fields = 0;
        loop {
            match self.next()? {
                b"[" => fields += 1,
                b")" => break,
                _ => {}
            }
        }
        while self.next()? != b"." {}
        Some(Branch { label, fields, then: self.read_type()? })
    }
}

/// What is open around a type.
#[derive(Clone, Copy, Debug, PartialEq, Eq)]
pub enum Open<'a> {
    Choice,
    Rec(&'a [u8]),
}

impl<'a> Open<'a> {
    /// The name of a `rec`.
    pub fn name(&self) -> Option<&'a [u8]> {
        match self {
            Open::Choice => None,
            Open::Rec(name) => Some(name),
        }
    }
}

/// A type of a tree, and what is open around it, innermost last.
#[derive(Clone, Debug, PartialEq, Eq)]
pub struct Place<'a> {
    pub of: &'a Type,
    pub around: Vec<Open<'a>>,
}

impl Type {
    /// The type itself and all within it, in the order of their first tokens.
    pub fn places(&self) -> Vec<Place<'_>> {
        let mut all = Vec::new();
        self.add_places(&mut Vec::new(), &mut all);
        all
    }

    fn add_places<'a>(&'a self, around: &mut Vec<Open<'a>>, all: &mut Vec<Place<'a>>) {
        all.push(Place { of: self, around: around.clone() });
        match &self.form {
            Form::End | Form::Name(_) => {}
            Form::Rec(name, body) => {
                around.push(Open::Rec(name));
                body.add_places(around, all);
                around.pop();
            }
            Form::Choice(_, branches) => {
                around.push(Open::Choice);
                branches.iter().for_each(|branch| branch.then.add_places(around, all));
                around.pop();
            }
        }
    }
}

impl Place<'_> {
    /// How many `rec`s stand straight before it.
    pub fn recs_before(&self) -> usize {
        self.around.iter().rev().take_while(|open| **open != Open::Choice).count()
    }

    /// Of a name, each `rec` of that name around it, outermost first: does a choice stand between the two?
    pub fn binders(&self) -> Vec<bool> {
        let Form::Name(name) = &self.of.form else {
            return Vec::new();
        };
        let binds = |&number: &usize| self.around[number] == Open::Rec(name);
        (0..self.around.len()).filter(binds).map(|number| self.around[number..].contains(&Open::Choice)).collect()
    }
}
