//! What both sides read from a segment and write into one, laid out as in `lib.rattle`.

/// The control bits of a segment.
#[derive(Clone, Copy, Debug, Default, PartialEq, Eq)]
#[repr(C)]
pub struct Bits {
    /// No more octets come from the sender.
    pub fin: bool,
    /// The sequence numbers are to be synchronised.
    pub syn: bool,
    /// The connection is to be reset.
    pub rst: bool,
    /// The octets are to be pushed to the receiver.
    pub psh: bool,
    /// The acknowledgement field counts.
    pub ack: bool,
    /// The urgent pointer counts.
    pub urg: bool,
}

/// What a segment says beside its octets, and how many these are.
#[derive(Clone, Copy, Debug, Default, PartialEq, Eq)]
#[repr(C)]
pub struct Fields {
    /// The number of the first octet, or of the SYN.
    pub number: u32,
    /// The number that the sender expects next, where ACK is set.
    pub acknowledgement: u32,
    /// The sender's port.
    pub source: u16,
    /// The receiver's port.
    pub destination: u16,
    /// How many octets the sender has room for.
    pub window: u16,
    /// The urgent pointer: a segment that is sent has 0.
    pub urgent: u16,
    /// The length of the payload, in octets.
    pub payload_len: u16,
    /// The control bits.
    pub bits: Bits,
}
