//! What is so of a connection.

use crate::c;
use crate::error::Error;
use crate::host::{Host, SocketId, State};

/// A connection as it stands. Lengths are octets, times and moments milliseconds. `embed/host.h` has each field at length.
#[derive(Clone, Copy, Debug, PartialEq, Eq)]
#[non_exhaustive]
#[allow(missing_docs)]
pub struct Info {
    pub state: State,
    pub in_flight: u64,
    pub held: u64,
    pub unsent: u64,
    pub readable: u64,
    pub kept: u64,
    pub peer_window: u64,
    pub own_window: u64,
    pub smss: u64,
    pub cwnd: u64,
    pub ssthresh: u64,
    /// Eight times the smoothed round-trip time.
    pub srtt_8: Option<u64>,
    /// Four times its variation.
    pub rttvar_4: Option<u64>,
    pub rto: u64,
    pub expiries: u64,
    pub resent: u64,
    /// What every call tells.
    pub error: Option<Error>,
    /// When what is in flight goes out again.
    pub retransmission: Option<u64>,
    /// When the peer's closed window is probed.
    pub probe: Option<u64>,
    /// Until when an acknowledgement waits for a second segment.
    pub delayed_ack: Option<u64>,
    /// Until when a small segment waits for more.
    pub small_waits: Option<u64>,
    /// When TIME-WAIT ends, or FIN-WAIT-2 of a closed socket.
    pub ends: Option<u64>,
}

impl Host {
    /// What is so of a socket's connection, in any state; of one that is over, what it left. EBADF, EOPNOTSUPP, ENOTCONN.
    pub fn info(&mut self, id: SocketId) -> Result<Info, Error> {
        let mut told = [0; 22];
        Error::check(unsafe { c::host_info_into(&mut self.0, id.0, told.as_mut_ptr(), told.len()) })?;
        let count = |place: usize| told[place] as u64;
        let some = |place: usize| u64::try_from(told[place]).ok();
        Ok(Info {
            state: State::of(told[0]).ok_or(Error::EINVAL)?,
            in_flight: count(1),
            held: count(2),
            unsent: count(3),
            readable: count(4),
            kept: count(5),
            peer_window: count(6),
            own_window: count(7),
            smss: count(8),
            cwnd: count(9),
            ssthresh: count(10),
            srtt_8: some(11),
            rttvar_4: some(12),
            rto: count(13),
            expiries: count(14),
            resent: count(15),
            error: Error::check(told[16]).err(),
            retransmission: some(17),
            probe: some(18),
            delayed_ack: some(19),
            small_waits: some(20),
            ends: some(21),
        })
    }
}
