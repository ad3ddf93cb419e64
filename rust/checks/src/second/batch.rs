//! A scan's worth of messages together: document 02, request 2.

use super::monitor::{awaited, due, step, Side, State, Verdict};
use super::table::Table;

/// What came of a batch.
#[derive(Clone, Copy, Debug, PartialEq, Eq)]
pub struct Batch {
    /// "Bytes used on a side are those of its forwarded and blamed messages."
    pub used_device: usize,
    pub used_host: usize,
    /// "Bytes written on an output those forwarded to it."
    pub written_to_device: usize,
    pub written_to_host: usize,
    /// The last answer: "with no step tried … that none was due", which is none here.
    pub last: Option<Verdict>,
}

/// One call over "the waiting bytes and an output buffer for each side".
pub fn batch(table: &Table, state: &mut State, device: &[u8], host: &[u8], to_device: &mut [u8], to_host: &mut [u8]) -> Batch {
    let mut batch = Batch { used_device: 0, used_host: 0, written_to_device: 0, written_to_host: 0, last: None };
    // "It asks 9 and 10": 11 it does not ask, for at an end none is due.
    if let Err(question @ (9 | 10)) = awaited(table, state) {
        batch.last = Some(Verdict::Refused(question));
        return batch;
    }
    // "Then takes due messages in turn until none is due, a step refuses or a blame falls."
    loop {
        let part = due(table, state, &device[batch.used_device..], &host[batch.used_host..]);
        if part.length == 0 {
            return batch;
        }
        let (waiting, used, output, written) = match part.side {
            Side::Device => (device, &mut batch.used_device, &mut *to_host, &mut batch.written_to_host),
            Side::Host => (host, &mut batch.used_host, &mut *to_device, &mut batch.written_to_device),
        };
        let message = &waiting[*used..*used + part.length];
        // "Each given the rest of the other side's output."
        let verdict = step(table, state, part.side, message, &mut output[*written..]);
        batch.last = Some(verdict);
        match verdict {
            Verdict::Forwarded => {
                *used += part.length;
                *written += part.length;
            }
            Verdict::Blamed(..) => {
                *used += part.length;
                return batch;
            }
            Verdict::Refused(_) => return batch,
        }
    }
}
