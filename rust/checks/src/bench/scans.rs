//! Scans: bytes that wait on both sides, to be taken at once or one message after the other.

use super::inputs::Input;
use sojimu::{Batch, Party, State, Table};
use std::mem::take;

/// Bytes that wait on either side, at a state to which all that is due of them leads back, and outputs that hold just that.
#[derive(Clone)]
pub struct Scan {
    /// The state: before and after at the same position.
    pub state: State,
    /// How many messages are due.
    pub messages: usize,
    /// The device's bytes.
    pub device: Vec<u8>,
    /// The host's.
    pub host: Vec<u8>,
    /// The output to the device.
    pub to_device: Vec<u8>,
    /// The output to the host.
    pub to_host: Vec<u8>,
}

impl Scan {
    /// So many rounds of a conversation. Behind the bytes of either side there are others, of which nothing is due.
    ///
    /// ```
    /// use sojimu_checks::bench::{inputs::small, scans::Scan};
    ///
    /// let scan = Scan::of(&small(), 50, b"Ask", b"Ok");
    /// assert_eq!((scan.messages, scan.device.len(), scan.host.len()), (100, 50 * 14 + 3, 50 * 9 + 2));
    /// assert_eq!((scan.to_device.len(), scan.to_host.len()), (50 * 9, 50 * 14));
    /// ```
    pub fn of(input: &Input, rounds: usize, device_behind: &[u8], host_behind: &[u8]) -> Scan {
        let (state, round) = input.conversation();
        let of = |party: Party| {
            let messages = round.iter().filter(|(side, _)| *side == party).map(|(_, message)| &message[..]);
            messages.collect::<Vec<_>>().concat().repeat(rounds)
        };
        let (device, host) = (of(Party::Device), of(Party::Host));
        let (to_device, to_host) = (vec![0; host.len()], vec![0; device.len()]);
        let (device, host) = ([&device, device_behind].concat(), [&host, host_behind].concat());
        Scan { state, messages: rounds * round.len(), device, host, to_device, to_host }
    }

    /// All at once.
    ///
    /// ```
    /// use sojimu_checks::bench::{inputs::small, scans::Scan};
    ///
    /// let mut scan = Scan::of(&small(), 50, b"Ask", b"Ok");
    /// let batch = scan.batch(&small().table());
    /// assert_eq!((batch.written_to_device, batch.written_to_host), (scan.to_device.len(), scan.to_host.len()));
    /// ```
    pub fn batch(&mut self, table: &Table) -> Batch {
        table.batch(&mut self.state, &self.device, &self.host, &mut self.to_device, &mut self.to_host)
    }

    /// One message after the other, by the due part and a step; how many were taken.
    ///
    /// ```
    /// use sojimu_checks::bench::{inputs::small, scans::Scan};
    ///
    /// let mut scan = Scan::of(&small(), 50, b"Ask", b"Ok");
    /// assert_eq!(scan.singly(&small().table()), 100);
    /// ```
    pub fn singly(&mut self, table: &Table) -> usize {
        let (mut device, mut host) = (&self.device[..], &self.host[..]);
        let (mut to_device, mut to_host) = (&mut self.to_device[..], &mut self.to_host[..]);
        let mut taken = 0;
        loop {
            let due = table.due(&self.state, device, host);
            let length = due.message.len();
            if length == 0 {
                return taken;
            }
            let (waiting, output) = match due.side {
                Party::Device => (&mut device, &mut to_host),
                Party::Host => (&mut host, &mut to_device),
            };
            table.step(&mut self.state, due.side, due.message, output);
            *waiting = &waiting[length..];
            *output = &mut take(output)[length..];
            taken += 1;
        }
    }
}
