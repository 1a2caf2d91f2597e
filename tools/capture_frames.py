"""What frames carry, for tools/check-capture: datagrams of IPv4 (RFC 791), segments of TCP (RFC 9293 section 3.1) and user datagrams (RFC 768), each only
where it has its form and its sums hold. No code of the stack is in it.

An address is a number with its first octet highest."""

from __future__ import annotations

import struct
from typing import NamedTuple, Optional, Tuple

TCP, UDP = 6, 17
FIN, SYN, RST, ACK = 1, 2, 4, 16
IPV4 = b"\x08\x00"
ETHERNET_HEAD, MOST_FRAME = 14, 1514
# Options of TCP (RFC 9293 section 3.1, RFC 7323 section 2.2), and the largest shift.
END_OF_OPTIONS, NO_OPERATION, SEGMENT_SIZE, WINDOW_SCALE = 0, 1, 2, 3
LENGTHS = {SEGMENT_SIZE: 4, WINDOW_SCALE: 3}
MOST_SHIFT = 14
# The octets of a datagram end where its header's length of 65,535 ends.
MOST_PAYLOAD = 65_515
_IPV4_HEAD = struct.Struct("!BxHHHxBxxII")
_TCP_HEAD = struct.Struct("!HHIIHH")
_UDP_HEAD = struct.Struct("!HHHH")
_PSEUDO_HEADER = struct.Struct("!IIHH")


class Packet(NamedTuple):
    """A datagram of IPv4, or a fragment of one, without its header. The offset is in octets."""

    source: int
    target: int
    protocol: int
    identification: int
    offset: int
    more: bool
    payload: bytes

    @property
    def is_whole(self) -> bool:
        """Whether it is no fragment."""
        return not self.offset and not self.more


class Segment(NamedTuple):
    """A segment of TCP. `shift` is that of its window scale option, or None."""

    source_port: int
    target_port: int
    number: int
    acknowledged: int
    flags: int
    window: int
    shift: Optional[int]
    octets: bytes


class Message(NamedTuple):
    """A user datagram."""

    source_port: int
    target_port: int
    octets: bytes


def sums_up(octets: bytes) -> bool:
    """Whether the one's complement sum of 16-bit words (RFC 1071) is 65,535, as that of octets with their checksum among them: then they are, as one number, a
    multiple of it. With a zero behind an octet that is left over they would be 256 times that."""
    return int.from_bytes(octets, "big") % 0xFFFF == 0


def read_packet(frame: bytes) -> Optional[Packet]:
    """The datagram or fragment of a frame; None where it has none that is unaltered."""
    if not ETHERNET_HEAD + 20 <= len(frame) <= MOST_FRAME or frame[12:14] != IPV4:
        return None
    first, length, identification, part, protocol, source, target = _IPV4_HEAD.unpack_from(frame, ETHERNET_HEAD)
    head, offset, more = 4 * (first & 15), 8 * (part & 0x1FFF), bool(part & 0x2000)
    if first >> 4 != 4 or not 20 <= head <= length <= len(frame) - ETHERNET_HEAD or not sums_up(frame[ETHERNET_HEAD : ETHERNET_HEAD + head]):
        return None
    size = length - head
    if offset + size > MOST_PAYLOAD or (more and (size == 0 or size % 8)):
        return None
    return Packet(source, target, protocol, identification, offset, more, frame[ETHERNET_HEAD + head : ETHERNET_HEAD + length])


def _is_unaltered(packet: Packet, octets: bytes) -> bool:
    """Whether a segment or user datagram and its pseudo header (RFC 9293 section 3.1) sum up."""
    return sums_up(_PSEUDO_HEADER.pack(packet.source, packet.target, packet.protocol, len(octets)) + octets)


def read_segment(packet: Packet) -> Optional[Segment]:
    """The segment of a whole datagram; None where it has none that is unaltered."""
    octets = packet.payload
    if not packet.is_whole or len(octets) < 20:
        return None
    source_port, target_port, number, acknowledged, word, window = _TCP_HEAD.unpack_from(octets)
    head = 4 * (word >> 12)
    if not 20 <= head <= len(octets) or not _is_unaltered(packet, octets):
        return None
    has_form, shift = (True, None) if head == 20 else _read_options(octets[20:head])
    if not has_form:
        return None
    return Segment(source_port, target_port, number, acknowledged, word & 0x3F, window, shift, octets[head:])


def _read_options(options: bytes) -> Tuple[bool, Optional[int]]:
    """Whether options have their form, and the shift of the last window scale option among them."""
    at, shift = 0, None
    while at < len(options) and options[at] != END_OF_OPTIONS:
        kind = options[at]
        length = 1 if kind == NO_OPERATION else options[at + 1] if at + 1 < len(options) else 0
        if at + length > len(options) or (kind != NO_OPERATION and length < 2) or LENGTHS.get(kind, length) != length:
            return False, None
        if kind == WINDOW_SCALE:
            shift = min(options[at + 2], MOST_SHIFT)
        at += length
    return True, shift


def read_message(packet: Packet) -> Optional[Message]:
    """The user datagram of a whole datagram; None where it has none that is unaltered. A checksum of 0 says that there is none."""
    octets = packet.payload
    if not packet.is_whole or len(octets) < 8:
        return None
    source_port, target_port, length, total = _UDP_HEAD.unpack_from(octets)
    if not 8 <= length <= len(octets) or (total and not _is_unaltered(packet, octets[:length])):
        return None
    return Message(source_port, target_port, octets[8:length])
