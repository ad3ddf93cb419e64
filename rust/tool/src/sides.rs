//! What there is of either side.

use sojimu::Party;

/// One for the device and one for the host.
#[derive(Clone, Copy, Debug, Default)]
pub struct Sides<T> {
    pub device: T,
    pub host: T,
}

impl<T> Sides<T> {
    /// That of a party.
    pub fn of(&self, party: Party) -> &T {
        match party {
            Party::Device => &self.device,
            Party::Host => &self.host,
        }
    }

    /// The same, to be changed.
    pub fn of_mut(&mut self, party: Party) -> &mut T {
        match party {
            Party::Device => &mut self.device,
            Party::Host => &mut self.host,
        }
    }
}
