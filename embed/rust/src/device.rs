//! A host on a link.

use crate::host::Host;
use crate::FRAME_SIZE;

/// A link: it gives the frames that arrived, and takes those that go out.
pub trait Device {
    /// Why a frame can't be read or sent.
    type Error;

    /// Writes a frame that arrived to the front of `frame`, and answers its length; None where none is there. It doesn't wait. A frame of more octets is
    /// none for a host: pass over it.
    fn recv(&mut self, frame: &mut [u8; FRAME_SIZE]) -> Result<Option<usize>, Self::Error>;

    /// Sends a frame, or loses it: TCP sends its octets again.
    fn send(&mut self, frame: &[u8]) -> Result<(), Self::Error>;
}

/// What became of the frames that arrived.
#[derive(Clone, Copy, Debug, Default, PartialEq, Eq)]
pub struct Heard {
    /// How many were taken.
    pub taken: usize,
    /// How many were dropped.
    pub dropped: usize,
}

impl Host {
    /// The first half of a turn: lets time pass, and takes the frames that arrived, up to 64, so that what goes out has its turn. `isn` answers a fresh
    /// initial number for each (`docs/EMBEDDING.md`).
    pub fn hear<D: Device>(&mut self, now: u64, device: &mut D, mut isn: impl FnMut() -> u32) -> Result<Heard, D::Error> {
        const MOST: usize = 64;
        let mut frame = [0; FRAME_SIZE];
        let mut heard = Heard::default();
        self.tick(now);
        while heard.taken + heard.dropped < MOST {
            let Some(len) = device.recv(&mut frame)? else { break };
            match self.deliver(now, isn(), &frame[..len.min(FRAME_SIZE)]) {
                Ok(()) => heard.taken += 1,
                Err(_) => heard.dropped += 1,
            }
        }
        Ok(heard)
    }

    /// The second half of a turn: sends each frame that is due, and answers how many those were. A frame that the device refuses counts as sent.
    pub fn speak<D: Device>(&mut self, now: u64, device: &mut D) -> Result<usize, D::Error> {
        let mut frame = [0; FRAME_SIZE];
        let mut count = 0;
        while let Some(due) = self.next_frame(now, &mut frame) {
            device.send(due)?;
            count += 1;
        }
        Ok(count)
    }
}
