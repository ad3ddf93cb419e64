//! The questions that are asked of bytes alone: 13, 14, 15 and 22, what a message's front tells, and writing a message.
//!
//! A message is a label (8 bytes, filled up with 0x00), a field count n (1 byte), n kinds (1 byte each), n numbers (4 bytes each,
//! two's complement, high byte first) and the texts' bytes, each text well-formed UTF-8 by itself. [`label`] and [`encode`] are
//! Rust; they are tested, not proved.

use crate::{codes, ffi, Question, MOST_FIELDS};

/// A buffer of so many bytes holds every message.
pub const LONGEST_MESSAGE: usize = 285;
/// The most bytes of a text in a message, however many characters they are.
pub const LONGEST_TEXT: usize = 64;

/// Questions 13 and 14 of bytes that may go on or stop before the texts' end: the length that the message announces. The texts'
/// bytes are not looked at.
///
/// ```
/// use sojimu::{message, Question};
///
/// let front = b"Say\0\0\0\0\0\x01\x01\0\0\0\x05";
/// assert_eq!(message::front(front), Ok(19));
/// assert_eq!(message::front(&front[..13]), Err(Question::BAD_FRONT));
/// ```
#[inline]
pub fn front(bytes: &[u8]) -> Result<usize, Question> {
    let head = ffi::front(bytes);
    match codes::refusal(head.question) {
        None => Ok(head.length as usize),
        Some(question) => Err(question),
    }
}

/// Can nothing that follows make a message of these bytes? Nine of them have an illegal label or a count above 4, or both arrays
/// are whole and 14 says no. What is not broken either has a front or may get one: 29 bytes always tell. The texts' bytes are not
/// looked at.
///
/// ```
/// use sojimu::message::broken;
///
/// assert!(!broken(b"Say\0\0\0\0\0\x01\x07\0\0\0"));
/// assert!(broken(b"Say\0\0\0\0\0\x01\x07\0\0\0\x05"));
/// assert!(!broken(b"say\0\0\0\0\0"));
/// assert!(broken(b"say\0\0\0\0\0\0"));
/// ```
#[inline]
pub fn broken(bytes: &[u8]) -> bool {
    ffi::broken(bytes)
}

/// Questions 13, 14, 15 and 22: the first that gets a no.
///
/// ```
/// use sojimu::{message, Question};
///
/// assert_eq!(message::refusal(b"Ok\0\0\0\0\0\0\0"), None);
/// assert_eq!(message::refusal(b"Ok\0\0\0\0\0\0\0!"), Some(Question::OTHER_LENGTH));
/// assert_eq!(message::refusal(b"Say\0\0\0\0\0\x01\x01\0\0\0\x02\xC3\xA9"), None);
/// assert_eq!(message::refusal(b"Say\0\0\0\0\0\x01\x01\0\0\0\x02\xC3("), Some(Question::NOT_UTF8));
/// ```
#[inline]
pub fn refusal(bytes: &[u8]) -> Option<Question> {
    codes::refusal(ffi::refusal(bytes))
}

/// Do the bytes begin with this label?
///
/// ```
/// use sojimu::message::{has_label, label};
///
/// let quit = label("Quit").unwrap();
/// assert!(has_label(b"Quit\0\0\0\0\0", quit));
/// assert!(!has_label(b"Quit", quit));
/// ```
#[inline]
pub fn has_label(bytes: &[u8], label: u64) -> bool {
    ffi::has_label(bytes, label)
}

/// Is a label legal: A-Z, then A-Z, a-z, 0-9, filled up with 0x00?
///
/// ```
/// use sojimu::message::label_legal;
///
/// assert!(label_legal(u64::from_be_bytes(*b"Temp2\0\0\0")));
/// assert!(!label_legal(u64::from_be_bytes(*b"temp2\0\0\0")));
/// ```
#[inline]
pub fn label_legal(label: u64) -> bool {
    ffi::sojimu_label_legal(label)
}

/// Is a range, its numbers plus 2^31, within its kind (0 int, 1 text, 2 flag) and not empty?
///
/// ```
/// use sojimu::message::range_legal;
///
/// assert!(range_legal(1, 0x8000_0000, 0x8000_0040));
/// assert!(!range_legal(1, 0x8000_0000, 0x8000_0041));
/// ```
#[inline]
pub fn range_legal(kind: u32, low: u32, high: u32) -> bool {
    ffi::sojimu_range_legal(kind, low, high)
}

/// The label of this name, its bytes filled up with 0x00, as one number with the high byte first; none where it is no legal one.
///
/// ```
/// use sojimu::message::label;
///
/// assert_eq!(label("Ask"), Some(0x4173_6B00_0000_0000));
/// assert_eq!(label("ask"), None);
/// ```
pub fn label(name: &str) -> Option<u64> {
    let mut bytes = [0; 8];
    bytes.get_mut(..name.len())?.copy_from_slice(name.as_bytes());
    let label = u64::from_be_bytes(bytes);
    // The filling is no part of a name.
    (label_legal(label) && !name.contains('\0')).then_some(label)
}

/// A field of a message that is written.
#[derive(Clone, Copy, Debug, PartialEq, Eq, Hash)]
pub enum Field<'a> {
    /// An int of this value.
    Int(i32),
    /// A text of these bytes, which must be well-formed UTF-8.
    Text(&'a [u8]),
    /// A flag.
    Flag(bool),
}

impl<'a> Field<'a> {
    /// The kind's code, the field's number, and the bytes of a text.
    fn parts(&self) -> (u8, i32, &'a [u8]) {
        match *self {
            Field::Int(value) => (0, value, &[]),
            Field::Text(bytes) => (1, bytes.len() as i32, bytes),
            Field::Flag(flag) => (2, i32::from(flag), &[]),
        }
    }
}

/// Writes the message of a label and its fields at the start of `out` and gives its length. A message that could not be one is
/// refused by the question that would refuse it: 13 for its label or more than four fields, 14 for a text of more than 64 bytes, 22
/// for one that is not well-formed UTF-8. Then 16 is asked; a refusal leaves `out` unchanged, as the rest of it always is.
///
/// ```
/// use sojimu::message::{encode, label, Field};
/// use sojimu::Question;
///
/// let ask = label("Ask").unwrap();
/// let mut out = [0xEE; 15];
/// assert_eq!(encode(ask, &[Field::Int(100)], &mut out), Ok(14));
/// assert_eq!(&out, b"Ask\0\0\0\0\0\x01\0\0\0\0\x64\xEE");
/// assert_eq!(encode(0, &[], &mut out), Err(Question::BAD_FRONT));
/// assert_eq!(encode(ask, &[Field::Text(&[0x20; 65])], &mut out), Err(Question::BAD_FIELD));
/// assert_eq!(encode(ask, &[Field::Text(b"\xC3")], &mut out), Err(Question::NOT_UTF8));
/// assert_eq!(encode(ask, &[Field::Flag(true)], &mut out[..13]), Err(Question::OUTPUT_TOO_SHORT));
/// ```
pub fn encode(label: u64, fields: &[Field<'_>], out: &mut [u8]) -> Result<usize, Question> {
    if !label_legal(label) || fields.len() > MOST_FIELDS {
        return Err(Question::BAD_FRONT);
    }
    let text = |field: &Field<'_>| field.parts().2.len();
    if fields.iter().any(|field| text(field) > LONGEST_TEXT) {
        return Err(Question::BAD_FIELD);
    }
    if fields.iter().any(|field| core::str::from_utf8(field.parts().2).is_err()) {
        return Err(Question::NOT_UTF8);
    }
    let length = 9 + 5 * fields.len() + fields.iter().map(text).sum::<usize>();
    let out = out.get_mut(..length).ok_or(Question::OUTPUT_TOO_SHORT)?;
    let (head, rest) = out.split_at_mut(9);
    head[..8].copy_from_slice(&label.to_be_bytes());
    head[8] = fields.len() as u8;
    let (kinds, rest) = rest.split_at_mut(fields.len());
    let (numbers, mut texts) = rest.split_at_mut(4 * fields.len());
    for ((field, kind), place) in fields.iter().zip(kinds).zip(numbers.chunks_exact_mut(4)) {
        let (code, number, bytes) = field.parts();
        *kind = code;
        place.copy_from_slice(&number.to_be_bytes());
        let (text, more) = texts.split_at_mut(bytes.len());
        text.copy_from_slice(bytes);
        texts = more;
    }
    Ok(length)
}
