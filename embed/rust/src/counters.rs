//! What was counted of a host.

use crate::c;
use crate::host::Host;

/// What was counted of a host since it was made. Each count holds still at its last value.
#[derive(Clone, Copy, Debug, Default, PartialEq, Eq)]
#[non_exhaustive]
#[allow(missing_docs)]
pub struct Counters {
    /// Frames that `deliver` was given, dropped ones among them.
    pub frames_in: u64,
    pub octets_in: u64,
    /// Frames that `next_frame` wrote.
    pub frames_out: u64,
    pub octets_out: u64,
    /// Frames that were dropped as `DropCause::Short`; so on in the order of the causes.
    pub short_frame: u64,
    pub other_mac: u64,
    pub other_type: u64,
    pub ip_header: u64,
    pub ip_sum: u64,
    pub other_address: u64,
    pub upper_header: u64,
    pub upper_sum: u64,
    pub fragment: u64,
    /// Frames that were dropped as `DropCause::NoRoom`, since the backlog of their listener waits.
    pub backlog: u64,
    /// No place in the table, or no id.
    pub table: u64,
    /// No memory for a connection.
    pub memory: u64,
    /// No place among the 16 control replies.
    pub replies: u64,
    /// No room in the queue of a UDP socket.
    pub queue: u64,
    /// No place for the datagram of a fragment.
    pub reassembly: u64,
    /// No route to the source of a SYN.
    pub route: u64,
    /// Control replies that `tick` gave up, since for 3,000 ms the MAC of their next hop wasn't known.
    pub replies_given_up: u64,
    /// Resets of aborted connections that it gave up.
    pub resets_given_up: u64,
    /// Datagrams that it gave up.
    pub datagrams_given_up: u64,
}

impl Host {
    /// What was counted of the host since it was made.
    pub fn counters(&mut self) -> Counters {
        let mut told = [0; 23];
        // A host is held, so the call is not refused.
        unsafe { c::host_counters_into(&mut self.0, told.as_mut_ptr(), told.len()) };
        let count = |place: usize| u64::try_from(told[place]).unwrap_or(0);
        Counters {
            frames_in: count(0),
            octets_in: count(1),
            frames_out: count(2),
            octets_out: count(3),
            short_frame: count(4),
            other_mac: count(5),
            other_type: count(6),
            ip_header: count(7),
            ip_sum: count(8),
            other_address: count(9),
            upper_header: count(10),
            upper_sum: count(11),
            fragment: count(12),
            backlog: count(13),
            table: count(14),
            memory: count(15),
            replies: count(16),
            queue: count(17),
            reassembly: count(18),
            route: count(19),
            replies_given_up: count(20),
            resets_given_up: count(21),
            datagrams_given_up: count(22),
        }
    }
}
