//! A scan's worth of messages together.

use crate::{codes, ffi, State, Table, Verdict};

/// What came of a batch.
#[derive(Clone, Copy, Debug, PartialEq, Eq, Hash)]
pub struct Batch {
    /// How many of the device's bytes are done with: those of its forwarded and blamed messages. The others wait.
    pub used_device: usize,
    /// The same of the host's.
    pub used_host: usize,
    /// How many bytes open the output to the device: those of the host's forwarded messages.
    pub written_to_device: usize,
    /// The same of the output to the host and the device's messages.
    pub written_to_host: usize,
    /// What the last step that was tried said, also where nothing was due after it; or 9 or 10, which refused the batch. None
    /// where no step was tried: no message was due.
    pub last: Option<Verdict>,
}

impl Batch {
    #[inline]
    fn of(batch: ffi::Batch) -> Batch {
        let ffi::Batch { used_device, used_host, written_to_device, written_to_host, last, .. } = batch;
        Batch { used_device, used_host, written_to_device, written_to_host, last: codes::last(last) }
    }
}

impl Table {
    /// Takes the due messages of the bytes that wait on either side, in turn, each by a step, until none is due, a step refuses or
    /// a blame falls. The device's messages go to `to_host`, the host's to `to_device`, one behind the other; the rest of both is
    /// unchanged. What comes early is not due and waits, under edition 2 too: nobody is blamed for it here. Asks 9 and 10.
    ///
    /// All is as by [`Table::due`] and [`Table::step`], each step given what is left of its output; but 9 is asked once. A message
    /// that 16 refuses is not used, and what was forwarded before it stays so: make room, and go on with the rest. Nor is one that
    /// 22 refuses, and it stays due: every batch stops there again, whatever follows, until the gateway drops it or closes the line.
    ///
    /// ```
    /// use sojimu::{Party, Question, Reason, Table, Verdict};
    ///
    /// let protocol = Table::read(b"rec X.+{!Ask(int[0..100]).&{?Ok().X},!Quit().end}")?;
    /// let mut state = protocol.fresh(200)?;
    /// let device = b"Ask\0\0\0\0\0\x01\0\0\0\0\x64Ask\0\0\0\0\0\x01\0\0\0\0\x65";
    /// let host = b"Ok\0\0\0\0\0\0\0Ok";
    /// let (mut to_device, mut to_host) = ([0xEE; 10], [0xEE; 20]);
    /// let batch = protocol.batch(&mut state, device, host, &mut to_device, &mut to_host);
    /// assert_eq!((batch.used_device, batch.written_to_host), (14, 14));
    /// assert_eq!((batch.used_host, batch.written_to_device), (9, 9));
    /// assert_eq!(batch.last, Some(Verdict::Refused(Question::OUTPUT_TOO_SHORT)));
    /// assert_eq!(&to_host, b"Ask\0\0\0\0\0\x01\0\0\0\0\x64\xEE\xEE\xEE\xEE\xEE\xEE");
    ///
    /// let batch = protocol.batch(&mut state, &device[14..], &host[9..], &mut to_device, &mut to_host);
    /// assert_eq!((batch.used_device, batch.written_to_host), (14, 0));
    /// assert_eq!(batch.last, Some(Verdict::Blamed(Party::Device, Reason::OutOfRange(0))));
    /// # Ok::<(), Box<dyn std::error::Error>>(())
    /// ```
    #[inline]
    pub fn batch(&self, state: &mut State, device: &[u8], host: &[u8], to_device: &mut [u8], to_host: &mut [u8]) -> Batch {
        Batch::of(ffi::batch(self, state, device, host, to_device, to_host))
    }
}
