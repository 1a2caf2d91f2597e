//! What a socket is ready for.

use core::fmt;
use core::ops::BitOr;

/// A set of what a socket can be ready for.
#[derive(Clone, Copy, Default, PartialEq, Eq, Hash)]
pub struct Ready(pub u32);

impl Ready {
    /// `accept` would answer a connection.
    pub const ACCEPT: Ready = Ready(1);
    /// `recv` would answer octets, or `recvfrom` a datagram.
    pub const READ: Ready = Ready(2);
    /// `send` would take an octet, or `sendto` a datagram of one, for a peer to whom a route leads.
    pub const WRITE: Ready = Ready(4);
    /// `recv` would answer 0, the end of the stream.
    pub const ENDED: Ready = Ready(8);
    /// The calls of the socket are refused with its connection's error.
    pub const FAILED: Ready = Ready(16);
    /// The connection is opening.
    pub const OPENING: Ready = Ready(32);

    /// Whether all of these are in it.
    pub const fn contains(self, of: Ready) -> bool {
        self.0 & of.0 == of.0
    }

    /// Whether one of these is in it.
    pub const fn meets(self, of: Ready) -> bool {
        self.0 & of.0 != 0
    }

    /// Whether nothing is in it.
    pub const fn is_empty(self) -> bool {
        self.0 == 0
    }
}

impl BitOr for Ready {
    type Output = Ready;

    fn bitor(self, other: Ready) -> Ready {
        Ready(self.0 | other.0)
    }
}

impl fmt::Debug for Ready {
    fn fmt(&self, f: &mut fmt::Formatter<'_>) -> fmt::Result {
        const NAMES: [(Ready, &str); 6] = [
            (Ready::ACCEPT, "ACCEPT"),
            (Ready::READ, "READ"),
            (Ready::WRITE, "WRITE"),
            (Ready::ENDED, "ENDED"),
            (Ready::FAILED, "FAILED"),
            (Ready::OPENING, "OPENING"),
        ];
        let mut between = "";
        for (one, name) in NAMES {
            if self.contains(one) {
                write!(f, "{between}{name}")?;
                between = " | ";
            }
        }
        if between.is_empty() {
            f.write_str("none")?;
        }
        Ok(())
    }
}
