//! A first conversation: a protocol is read, and one message of the device's goes on to the host.

use sojimu::message::{self, Field};
use sojimu::{Conversation, Party, Table, LONGEST_MESSAGE};
use std::error::Error;

fn main() -> Result<(), Box<dyn Error>> {
    // The device asks or quits; the host answers each question.
    let protocol = Table::read(b"rec X.+{!Ask(int[0..100]).&{?Ok().X},!Quit().end}")?;
    let mut conversation = Conversation::<LONGEST_MESSAGE>::begin(&protocol, 200)?;
    let mut out = [0; LONGEST_MESSAGE];
    let ask = message::label("Ask").ok_or("no label")?;
    let length = message::encode(ask, &[Field::Int(42)], &mut out)?;
    conversation.hear(Party::Device, &out[..length]);
    let (mut to_device, mut to_host) = ([0; LONGEST_MESSAGE], [0; LONGEST_MESSAGE]);
    let passed = conversation.pass(&mut to_device, &mut to_host);
    println!("forwarded to the host: {} bytes", passed.to_host);
    assert_eq!(conversation.ended(), None);
    Ok(())
}
