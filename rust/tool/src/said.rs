//! What is said: a message's label and values.

use super::text::shown;
use super::words;
use sojimu::message::{label_legal, range_legal, Field};
use sojimu::MOST_FIELDS;

/// A message with its values: `Set(24, 0)`. Of bytes that have a front and are whole; a text's bytes that are no UTF-8 are shown by
/// their numbers.
pub fn message(bytes: &[u8]) -> String {
    let values: Vec<String> = fields(bytes).iter().map(value).collect();
    format!("{}({})", label(bytes), values.join(", "))
}

/// The label with which bytes begin.
pub fn label(bytes: &[u8]) -> String {
    bytes.first_chunk().map_or(String::new(), |&first| words::label(u64::from_be_bytes(first)))
}

/// The kinds of a message's fields with their numbers, and the bytes behind them. None where they are not all there.
fn arrays(bytes: &[u8]) -> Option<(Vec<(u8, i32)>, &[u8])> {
    let count = usize::from(*bytes.get(8)?);
    let (kinds, rest) = bytes[9..].split_at_checked(count)?;
    let (numbers, texts) = rest.split_at_checked(4 * count)?;
    let numbers = numbers.chunks_exact(4).map(|four| i32::from_be_bytes([four[0], four[1], four[2], four[3]]));
    Some((kinds.iter().copied().zip(numbers).collect(), texts))
}

/// Whether a number is within its kind, by the library, which takes it in offset form.
fn is_legal(kind: u8, number: i32) -> bool {
    let offset = number as u32 ^ 1 << 31;
    range_legal(kind.into(), offset, offset)
}

/// What is wrong with the front of a message that 13 or 14 refuses, whatever follows: its label, its count, a kind or a number.
pub fn amiss(bytes: &[u8]) -> String {
    let Some((&label, &count)) = bytes.first_chunk().zip(bytes.get(8)) else { return String::new() };
    if !label_legal(u64::from_be_bytes(label)) {
        return format!("The label is {}.", quoted(&label));
    }
    if usize::from(count) > MOST_FIELDS {
        return format!("The count is {count}.");
    }
    let Some((fields, _)) = arrays(bytes) else { return String::new() };
    match fields.into_iter().enumerate().find(|&(_, (kind, number))| !is_legal(kind, number)) {
        Some((at, (kind @ 3.., _))) => format!("The kind of field {at} is {kind}."),
        Some((at, (_, number))) => format!("The number of field {at} is {number}."),
        None => String::new(),
    }
}

/// The fields of a message.
pub fn fields(bytes: &[u8]) -> Vec<Field<'_>> {
    let Some((fields, mut texts)) = arrays(bytes) else { return Vec::new() };
    let mut values = Vec::new();
    for (kind, number) in fields {
        values.push(match kind {
            1 => {
                let (text, rest) = texts.split_at(texts.len().min(usize::try_from(number).unwrap_or(0)));
                texts = rest;
                Field::Text(text)
            }
            2 => Field::Flag(number != 0),
            _ => Field::Int(number),
        });
    }
    values
}

/// The name of a field's kind.
pub fn kind(field: &Field) -> &'static str {
    match field {
        Field::Int(_) => words::kind(0),
        Field::Text(_) => words::kind(1),
        Field::Flag(_) => words::kind(2),
    }
}

/// A field's value as it is shown.
fn value(field: &Field) -> String {
    match field {
        Field::Int(value) => value.to_string(),
        Field::Text(text) => quoted(text),
        Field::Flag(flag) => flag.to_string(),
    }
}

/// The same as ranges speak of it.
pub fn measured(field: &Field) -> String {
    match field {
        Field::Text(text) => format!("a text of {}", words::counted(text.len(), "byte", "bytes")),
        _ => value(field),
    }
}

/// A text in quotes: what no terminal should get, and the quotes, behind a stroke.
fn quoted(text: &[u8]) -> String {
    let mut quoted = String::from("\"");
    for chunk in text.utf8_chunks() {
        for character in chunk.valid().chars() {
            quoted += &match character {
                '"' | '\\' => format!("\\{character}"),
                '\t' => "\\t".to_string(),
                _ => shown(character),
            };
        }
        chunk.invalid().iter().for_each(|byte| quoted += &format!("\\x{byte:02X}"));
    }
    quoted + "\""
}
