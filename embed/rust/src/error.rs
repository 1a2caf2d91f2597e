//! Why a call is refused, and why a frame is dropped.

use core::fmt;

/// A refusal, with the name that POSIX.1-2017 has for it. A refused call changes nothing.
#[derive(Clone, Copy, Debug, PartialEq, Eq, Hash)]
#[non_exhaustive]
pub enum Error {
    /// The id names no socket.
    EBADF,
    /// The arguments or the socket's state don't allow the call.
    EINVAL,
    /// The port or the pair of endpoints is in use, or no dynamic port is free.
    EADDRINUSE,
    /// The address is not ours to bind to, or none that a peer may have.
    EADDRNOTAVAIL,
    /// The socket has had a connection.
    EISCONN,
    /// The socket has no connection, or none yet whose side could be closed.
    ENOTCONN,
    /// The socket's connection is opening.
    EALREADY,
    /// There is nothing to do now; the same call may succeed later.
    EAGAIN,
    /// The peer refused the connection, or an error told that its SYN can't be delivered.
    ECONNREFUSED,
    /// The peer reset the connection.
    ECONNRESET,
    /// The peer of the connection was silent for too long.
    ETIMEDOUT,
    /// Our side of the connection is closed.
    EPIPE,
    /// The datagram has more than 65,507 octets.
    EMSGSIZE,
    /// No route leads to the address.
    ENETUNREACH,
    /// The table of sockets is full, or the last id is given.
    EMFILE,
    /// Memory ran out.
    ENOMEM,
    /// The socket is listening, or the call is not one of its kind.
    EOPNOTSUPP,
    /// The socket is not bound; `send` on a UDP socket, which has no peer.
    EDESTADDRREQ,
}

/// The refusals, in the order of their numbers.
const ERRORS: [Error; 18] = [
    Error::EBADF,
    Error::EINVAL,
    Error::EADDRINUSE,
    Error::EADDRNOTAVAIL,
    Error::EISCONN,
    Error::ENOTCONN,
    Error::EALREADY,
    Error::EAGAIN,
    Error::ECONNREFUSED,
    Error::ECONNRESET,
    Error::ETIMEDOUT,
    Error::EPIPE,
    Error::EMSGSIZE,
    Error::ENETUNREACH,
    Error::EMFILE,
    Error::ENOMEM,
    Error::EOPNOTSUPP,
    Error::EDESTADDRREQ,
];

impl Error {
    /// What a call answered, where it isn't refused.
    pub(crate) fn check(answer: i64) -> Result<u64, Error> {
        u64::try_from(answer).map_err(|_| *at(&ERRORS, answer).unwrap_or(&Error::EINVAL))
    }
}

impl fmt::Display for Error {
    fn fmt(&self, f: &mut fmt::Formatter<'_>) -> fmt::Result {
        fmt::Debug::fmt(self, f)
    }
}

impl core::error::Error for Error {}

/// Why a frame was dropped. `docs/CODES.md` has each at length.
#[derive(Clone, Copy, Debug, PartialEq, Eq, Hash)]
#[non_exhaustive]
pub enum DropCause {
    /// Fewer than 14 octets, or more than 1,514.
    Short,
    /// The destination is not our MAC.
    OtherMac,
    /// Neither IPv4 nor ARP.
    OtherType,
    /// The IPv4 header has not the form of one.
    IpHeader,
    /// The checksum of the IPv4 header is wrong.
    IpSum,
    /// Not for our address, or from ours or not unicast.
    OtherAddress,
    /// A malformed ARP packet or header of ICMP, UDP or TCP.
    UpperHeader,
    /// The checksum of ICMP, UDP or TCP is wrong.
    UpperSum,
    /// No place in a table or queue, no memory, no id, or no route to the source of a SYN.
    NoRoom,
    /// A fragment of another protocol than UDP.
    Fragment,
}

/// The causes, in the order of their numbers.
const CAUSES: [DropCause; 10] = [
    DropCause::Short,
    DropCause::OtherMac,
    DropCause::OtherType,
    DropCause::IpHeader,
    DropCause::IpSum,
    DropCause::OtherAddress,
    DropCause::UpperHeader,
    DropCause::UpperSum,
    DropCause::NoRoom,
    DropCause::Fragment,
];

impl DropCause {
    /// What became of a frame.
    pub(crate) fn check(answer: i64) -> Result<(), DropCause> {
        if answer >= 0 {
            return Ok(());
        }
        Err(*at(&CAUSES, answer).unwrap_or(&DropCause::NoRoom))
    }
}

impl fmt::Display for DropCause {
    fn fmt(&self, f: &mut fmt::Formatter<'_>) -> fmt::Result {
        fmt::Debug::fmt(self, f)
    }
}

impl core::error::Error for DropCause {}

/// What a negative number counts: the first of the list is -1.
fn at<T>(list: &[T], number: i64) -> Option<&T> {
    let place = number.checked_neg()?.checked_sub(1)?;
    list.get(usize::try_from(place).ok()?)
}
