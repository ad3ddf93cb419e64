//! Labels of names, and messages that are written: what is refused would be refused by the same question, and what is written is
//! read again as it was meant, by the proved library and by the second implementation.

use sojimu::message::{encode, front, has_label, label, refusal, Field, LONGEST_TEXT};
use sojimu::{Party, Question, Table, Verdict, LONGEST_MESSAGE, MOST_FIELDS};
use sojimu_checks::second::message::{read, Message};
use sojimu_checks::second::random::{broken_utf8, kind, label_of, number_of, utf8_bytes, Random};
use sojimu_checks::second::table::{legal_label, Kind, Label};

/// A name that is mostly a label's: a capital, then letters and digits, eight at the most.
fn name(random: &mut Random) -> String {
    let length = random.below(10);
    let mut bytes: Vec<u8> = (0..length).map(|_| *random.pick(b"ABYZabyz0189")).collect();
    let place = random.below(length);
    match bytes.get_mut(place) {
        Some(byte) if random.one_in(8) => *byte = *random.pick(b"\0@[`{/: _\x7F"),
        Some(_) if !random.one_in(8) => bytes[0] = b'M',
        _ => {}
    }
    String::from_utf8(bytes).unwrap()
}

#[test]
fn labels_of_names() {
    let (mut legal, mut none) = (0, 0);
    for seed in 0..4000 {
        let name = name(&mut Random::new(seed));
        let bytes = label_of(name.as_bytes());
        let whole = name.len() <= bytes.len() && !name.contains('\0') && legal_label(&bytes);
        assert_eq!(label(&name), whole.then_some(u64::from_be_bytes(bytes)), "{name:?}");
        *(if whole { &mut legal } else { &mut none }) += 1;
    }
    println!("legal {legal}, none {none}");
    assert!(legal > 1000 && none > 1000);
    assert_eq!((label(""), label("Ask\0"), label("Abcdefghi"), label("Äsk")), (None, None, None, None));
    assert_eq!(label("Abcdefgh"), Some(u64::from_be_bytes(*b"Abcdefgh")));
}

/// A message's parts, at times such as no message has: another label, a field too many, a text too long or broken.
fn parts(random: &mut Random) -> (Label, Vec<(Kind, i64, Vec<u8>)>) {
    let label = label_of(name(random).as_bytes());
    let most = if random.one_in(8) { MOST_FIELDS + 2 } else { MOST_FIELDS };
    let longest = if random.one_in(4) { LONGEST_TEXT + 9 } else { LONGEST_TEXT };
    let count = random.below(most + 1);
    let mut field = || match kind(random) {
        Kind::Text => {
            let length = if random.one_in(2) { longest } else { random.below(longest) };
            let broken = length > 0 && random.one_in(8);
            let text = if broken { broken_utf8(random, length) } else { utf8_bytes(random, length) };
            (Kind::Text, length as i64, text)
        }
        other => (other, number_of(random, other), Vec::new()),
    };
    let fields = (0..count).map(|_| field()).collect();
    (label, fields)
}

#[test]
fn what_is_written_is_what_was_meant() {
    let mut counts = [0; 23];
    for seed in 0..8000 {
        let mut random = Random::new(seed);
        let (label, parts) = parts(&mut random);
        let fields: Vec<Field> = parts
            .iter()
            .map(|(kind, number, text)| match kind {
                Kind::Int => Field::Int(*number as i32),
                Kind::Text => Field::Text(text),
                Kind::Flag => Field::Flag(*number == 1),
            })
            .collect();
        // The same as the second implementation has it, message or not.
        let texts = parts.iter().flat_map(|(_, _, text)| text.clone()).collect();
        let meant = Message { label, fields: parts.iter().map(|(kind, number, _)| (*kind, *number)).collect(), texts };
        let bytes = meant.bytes();
        let room = if random.one_in(6) { random.below(bytes.len()) } else { bytes.len() + random.below(4) };
        let mut wanted = vec![0xEE; room];
        let answer = match read(&bytes) {
            Err(question) => Err(Question(question)),
            Ok(_) if room < bytes.len() => Err(Question(16)),
            Ok(message) => {
                assert_eq!(message, meant, "seed {seed}");
                wanted[..bytes.len()].copy_from_slice(&bytes);
                Ok(bytes.len())
            }
        };
        let mut out = vec![0xEE; room];
        assert_eq!(encode(u64::from_be_bytes(label), &fields, &mut out), answer, "seed {seed}");
        assert_eq!(out, wanted, "seed {seed}");
        match answer {
            Ok(length) => {
                counts[0] += 1;
                assert!(length <= LONGEST_MESSAGE);
                assert_eq!((refusal(&out[..length]), front(&out)), (None, Ok(length)), "seed {seed}");
                assert!(has_label(&out, u64::from_be_bytes(label)));
            }
            Err(question) => {
                counts[usize::from(question.0)] += 1;
                let refused = if question == Question(16) { None } else { Some(question) };
                assert_eq!(refusal(&bytes), refused, "seed {seed}");
            }
        }
    }
    println!("written {}, 13: {}, 14: {}, 22: {}, 16: {}", counts[0], counts[13], counts[14], counts[22], counts[16]);
    assert!([0, 13, 14, 16, 22].into_iter().all(|question| counts[question] > 100));
}

#[test]
fn the_longest_message() {
    let text = [0x20; LONGEST_TEXT];
    let mut out = [0; LONGEST_MESSAGE];
    assert_eq!(encode(label("Big").unwrap(), &[Field::Text(&text); MOST_FIELDS], &mut out), Ok(LONGEST_MESSAGE));
    let short = &mut out[..LONGEST_MESSAGE - 1];
    assert_eq!(encode(label("Big").unwrap(), &[Field::Text(&text); MOST_FIELDS], short), Err(Question(16)));
}

#[test]
fn a_conversation_that_is_written() {
    let protocol = Table::read(b"+{!Say(text[1..9],int[-5..5],flag[0..1]).&{?Ok().end}}").unwrap();
    let (mut state, mut out) = (protocol.fresh(200).unwrap(), [0; LONGEST_MESSAGE]);
    let mut say = |side, name, fields: &[Field]| {
        let mut message = [0; LONGEST_MESSAGE];
        let length = encode(label(name).unwrap(), fields, &mut message).unwrap();
        protocol.step(&mut state, side, &message[..length], &mut out)
    };
    let said = say(Party::Device, "Say", &[Field::Text("glac\u{E9}".as_bytes()), Field::Int(-5), Field::Flag(true)]);
    assert_eq!(said, Verdict::Forwarded);
    assert_eq!(say(Party::Host, "Ok", &[]), Verdict::Forwarded);
    assert_eq!(say(Party::Host, "Ok", &[]), Verdict::Refused(Question(11)));
}
