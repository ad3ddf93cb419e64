//! Messages: questions 13, 14, 15 and 22 over any bytes, and messages made from a branch (9, 18, 16).
//!
//! Label (8 bytes), field count n (1 byte), n kinds (1 byte each), n numbers (4 bytes each, high byte first), the texts' bytes.

use super::table::{legal_label, sound, Branch, Kind, Label, Table, LABEL_BYTES, MOST_FIELDS};

/// Label and field count.
pub const HEAD_BYTES: usize = LABEL_BYTES + 1;
/// The filling of a made text.
pub const TEXT_FILLING: u8 = 0x20;

/// A message that 13 and 14 do not refuse.
#[derive(Clone, Debug, PartialEq, Eq)]
pub struct Message {
    pub label: Label,
    /// Each field's kind and number.
    pub fields: Vec<(Kind, i64)>,
    /// The texts' bytes in field order; of a front, nothing.
    pub texts: Vec<u8>,
}

impl Message {
    pub fn kinds(&self) -> impl Iterator<Item = Kind> + '_ {
        self.fields.iter().map(|&(kind, _)| kind)
    }

    /// How many bytes label, count, kinds, numbers and texts take.
    pub fn length(&self) -> usize {
        HEAD_BYTES + 5 * self.fields.len() + self.announced()
    }

    /// How many bytes of text the fields announce.
    fn announced(&self) -> usize {
        self.fields.iter().map(|&(kind, number)| text_bytes(kind, number)).sum()
    }

    /// The bytes of each field's text, in field order; of a field that is no text, none. Texts that are cut have what is there.
    pub fn each_text(&self) -> impl Iterator<Item = &[u8]> {
        let mut rest = &self.texts[..];
        self.fields.iter().map(move |&(kind, number)| {
            let (text, behind) = rest.split_at(text_bytes(kind, number).min(rest.len()));
            rest = behind;
            text
        })
    }

    /// Is it a message that 13, 14, 15 and 22 do not refuse?
    pub fn well_formed(&self) -> bool {
        legal_label(&self.label)
            && self.fields.len() <= MOST_FIELDS
            && self.fields.iter().all(|&(kind, number)| kind.holds(number))
            && self.texts.len() == self.announced()
            && self.texts_well_formed()
    }

    /// "Every text field must be well-formed UTF-8 as RFC 3629 has it": each by itself, for a field is what must be so.
    fn texts_well_formed(&self) -> bool {
        self.each_text().all(|text| std::str::from_utf8(text).is_ok())
    }

    /// The message's bytes.
    pub fn bytes(&self) -> Vec<u8> {
        let mut bytes = self.label.to_vec();
        bytes.push(self.fields.len() as u8);
        bytes.extend(self.fields.iter().map(|&(kind, _)| kind.code()));
        for &(_, number) in &self.fields {
            bytes.extend((number as i32).to_be_bytes());
        }
        bytes.extend(&self.texts);
        bytes
    }
}

fn text_bytes(kind: Kind, number: i64) -> usize {
    match kind {
        Kind::Text => number as usize,
        Kind::Int | Kind::Flag => 0,
    }
}

/// Questions 13 and 14, which look at label, count and arrays only. The texts of what is given back are left out.
pub fn front(bytes: &[u8]) -> Result<Message, u8> {
    // 13. Are there nine bytes, a legal label, a count of at most 4, and both arrays whole?
    if bytes.len() < HEAD_BYTES {
        return Err(13);
    }
    let mut label = [0; LABEL_BYTES];
    label.copy_from_slice(&bytes[..LABEL_BYTES]);
    let count = usize::from(bytes[LABEL_BYTES]);
    if !legal_label(&label) || count > MOST_FIELDS || bytes.len() < HEAD_BYTES + 5 * count {
        return Err(13);
    }
    // 14. Is every kind known and every number within its kind?
    let kinds = &bytes[HEAD_BYTES..HEAD_BYTES + count];
    let numbers = &bytes[HEAD_BYTES + count..HEAD_BYTES + 5 * count];
    let mut fields = Vec::new();
    for (&code, number) in kinds.iter().zip(numbers.chunks(4)) {
        let number = i64::from(i32::from_be_bytes([number[0], number[1], number[2], number[3]]));
        match Kind::of_code(code) {
            Some(kind) if kind.holds(number) => fields.push((kind, number)),
            _ => return Err(14),
        }
    }
    Ok(Message { label, fields, texts: Vec::new() })
}

/// Questions 13, 14, 15 and 22: the message that the bytes are.
pub fn read(bytes: &[u8]) -> Result<Message, u8> {
    let mut message = front(bytes)?;
    // 15. Is the length exactly what this gives?
    if bytes.len() != message.length() {
        return Err(15);
    }
    message.texts = bytes[HEAD_BYTES + 5 * message.fields.len()..].to_vec();
    // 22. "Refused: 22 for a text that isn't, after 15 and before 16."
    if !message.texts_well_formed() {
        return Err(22);
    }
    Ok(message)
}

/// "Bytes are broken when nothing that follows can make a message of them that 13 and 14 let pass, as far as can be told from a
/// whole label and count, and then from whole arrays: there are nine bytes and the label is illegal or the count above 4; or both
/// arrays are whole and 14 says no."
pub fn broken(bytes: &[u8]) -> bool {
    let Some((label, [count, ..])) = bytes.split_first_chunk() else {
        return false;
    };
    !legal_label(label) || usize::from(*count) > MOST_FIELDS || matches!(front(bytes), Err(14))
}

/// Do the bytes begin with the label's eight bytes?
pub fn has_label(label: &Label, bytes: &[u8]) -> bool {
    bytes.starts_with(label)
}

/// The message of a branch with these numbers, texts filled with 0x20.
pub fn with_numbers(branch: &Branch, numbers: &[i64]) -> Message {
    let fields: Vec<(Kind, i64)> = branch.kinds().zip(numbers.iter().copied()).collect();
    let texts = fields.iter().map(|&(kind, number)| text_bytes(kind, number)).sum();
    Message { label: branch.label, fields, texts: vec![TEXT_FILLING; texts] }
}

/// "Every number low, or one named field high, texts filled with 0x20": the message of a branch of a sound table. A named field
/// that the branch has not changes nothing.
pub fn made(branch: &Branch, high: Option<usize>) -> Message {
    let numbers: Vec<i64> =
        branch.fields.iter().enumerate().map(|(f, field)| if high == Some(f) { field.high } else { field.low }).collect();
    with_numbers(branch, &numbers)
}

/// Makes a message from a table's branch at the start of the buffer and answers its length; asks 9, 18, 16.
pub fn make(table: &Table, branch: usize, high: Option<usize>, buffer: &mut [u8]) -> Result<usize, u8> {
    if !sound(table) {
        return Err(9);
    }
    // 18. Does the branch exist, and has it the named field?
    let branch = table.branches.get(branch).ok_or(18)?;
    if high.is_some_and(|field| field >= branch.fields.len()) {
        return Err(18);
    }
    let bytes = made(branch, high).bytes();
    // 16. Does the output buffer hold the message?
    let start = buffer.get_mut(..bytes.len()).ok_or(16)?;
    start.copy_from_slice(&bytes);
    Ok(bytes.len())
}
