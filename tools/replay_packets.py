"""Captures of tcpdump for tools/replay-capture: their records, the segments that frames carry, and frames as they went over the wire.

A machine that leaves checksums and segmentation to its device captures frames as they were before that: without a checksum, and longer than a frame. A
capture may also have the first octets of a frame alone. `mended` and `pieces` make frames of them that a host takes."""

from __future__ import annotations

import struct
from typing import Dict, Iterator, List, NamedTuple, Optional, Tuple

from testbed_frames import ICMP, IPV4, TCP, UDP, Datagram, checksum, read_ipv4

ETHERNET_HEAD, MOST_FRAME = 14, 1514
# The first four octets of a capture, as the machine wrote them that made it: how many nanoseconds a unit of its fractions has.
UNITS = {0xA1B2C3D4: 1000, 0xA1B23C4D: 1}
PCAPNG = b"\x0a\x0d\x0d\x0a"
LINK_ETHERNET = 1
# No frame of a capture is longer: tcpdump takes 262,144 octets at the most.
MOST_RECORD = 1 << 20
FIN, SYN, RST, PSH, ACK, URG = 1, 2, 4, 8, 16, 32
# Sequence numbers are those below ALL, and compared by the sign of their difference.
ALL, HALF = 1 << 32, 1 << 31
# The most octets of a segment in a frame, and the most that a capture may lack in one place: what is further off is none of the stream.
SEGMENT_SIZE, MOST_LACKING = 1460, 1 << 24
# Options of TCP (RFC 9293 section 3.1, RFC 7323, RFC 2018).
END_OF_OPTIONS, NO_OPERATION, WINDOW_SCALE, SELECTIVE = 0, 1, 3, 4
# Where the checksum of a protocol stands.
SUM_AT = {ICMP: 2, TCP: 16, UDP: 6}


class Refused(Exception):
    """Why a capture can't be replayed, in a line."""


class Record(NamedTuple):
    """A frame of a capture, its moment in nanoseconds, and how many octets it had on the wire."""

    moment: int
    frame: bytes
    length: int


class Segment(NamedTuple):
    """A TCP segment (RFC 9293 section 3.1)."""

    source: int
    target: int
    number: int
    acknowledged: int
    flags: int
    window: int
    options: bytes
    data: bytes

    @property
    def span(self) -> int:
        """How many sequence numbers it takes."""
        return len(self.data) + bool(self.flags & SYN) + bool(self.flags & FIN)


def is_after(one: int, other: int) -> bool:
    """Whether a sequence number is past another."""
    return 0 < (one - other) % ALL < HALF


def nearest(number: int, position: int) -> int:
    """The position, counted without wrapping, that a sequence number has and that is nearest to another."""
    return position + (number - position + HALF) % ALL - HALF


def read_capture(path: str) -> Tuple[List[Record], bool]:
    """The records of a capture, and whether its file ends behind one."""
    try:
        with open(path, "rb") as file:
            octets = file.read()
    except OSError as error:
        raise Refused(f"{path}: {error.strerror}") from None
    if octets[:4] == PCAPNG:
        raise Refused(f"{path} is a capture of the newer format (pcapng); editcap -F pcap makes one of the older")
    order = next((it for it in "<>" if len(octets) >= 24 and struct.unpack_from(f"{it}I", octets)[0] in UNITS), None)
    if order is None:
        raise Refused(f"{path} is no capture of tcpdump")
    unit = UNITS[struct.unpack_from(f"{order}I", octets)[0]]
    link = struct.unpack_from(f"{order}I", octets, 20)[0] & 0xFFFF
    if link != LINK_ETHERNET:
        raise Refused(f"{path} has no Ethernet frames, but those of link type {link}; tcpdump -i DEVICE makes one of a device")
    return _read_records(octets, order, unit, path)


def _read_records(octets: bytes, order: str, unit: int, path: str) -> Tuple[List[Record], bool]:
    records, at = [], 24
    while at + 16 <= len(octets):
        seconds, fraction, kept, length = struct.unpack_from(f"{order}IIII", octets, at)
        if kept > length or length > MOST_RECORD:
            raise Refused(f"{path} has no record where one should be, {at} octets from its begin")
        frame = octets[at + 16 : at + 16 + kept]
        if len(frame) < kept:
            break
        records.append(Record(seconds * 1_000_000_000 + fraction * unit, frame, length))
        at += 16 + kept
    return records, at == len(octets)


def read_segment(datagram: Datagram) -> Optional[Segment]:
    """The segment that a whole datagram carries; None where it carries none, or one without its form."""
    octets = datagram.payload
    if datagram.protocol != TCP or datagram.offset or datagram.more or len(octets) < 20:
        return None
    source, target, number, acknowledged, word, window = struct.unpack_from("!HHIIHH", octets)
    head = 4 * (word >> 12)
    if not 20 <= head <= len(octets):
        return None
    return Segment(source, target, number, acknowledged, word & 0xFF, window, octets[20:head], octets[head:])


def options_of(octets: bytes) -> Iterator[Tuple[int, int, int]]:
    """The options of a segment: the kind of each, where it stands, and its length. What has not their form ends them."""
    at = 0
    while at < len(octets) and octets[at] != END_OF_OPTIONS:
        length = 1 if octets[at] == NO_OPERATION else octets[at + 1] if at + 1 < len(octets) else 0
        if length == 0 or at + length > len(octets):
            return
        yield octets[at], at, length
        at += length


def ipv4_of(frame: bytes) -> Optional[Datagram]:
    """The datagram of a frame; None where it has none."""
    return read_ipv4(frame[ETHERNET_HEAD:]) if frame[12:14] == struct.pack("!H", IPV4) else None


def mended(record: Record) -> bytes:
    """The frame as it went over the wire: octets that were not kept are 0, and a checksum that was left to a device stands in its place. One that is wrong
    otherwise stays."""
    frame = bytearray(record.frame.ljust(record.length, b"\0"))
    if frame[12:14] != struct.pack("!H", IPV4) or len(frame) < 34:
        return bytes(frame)
    if frame[16:18] == b"\0\0":
        frame[16:18] = struct.pack("!H", min(len(frame) - ETHERNET_HEAD, 0xFFFF))
    if frame[24:26] == b"\0\0":
        _sum_header(frame)
    datagram = ipv4_of(bytes(frame))
    if datagram is not None and not datagram.offset and not datagram.more:
        if len(record.frame) < record.length or _is_left_to_device(datagram):
            _sum_payload(frame, datagram)
    return bytes(frame)


def _is_left_to_device(datagram: Datagram) -> bool:
    """Whether the place of the checksum has the sum of the pseudo header alone, as Linux leaves it."""
    at = SUM_AT.get(datagram.protocol, 0)
    if datagram.protocol not in (TCP, UDP) or len(datagram.payload) < at + 2:
        return False
    return datagram.payload[at : at + 2] == struct.pack("!H", ~checksum(_pseudo_header(datagram)) & 0xFFFF)


def _pseudo_header(datagram: Datagram) -> bytes:
    if datagram.protocol == ICMP:
        return b""
    return datagram.octets[12:20] + struct.pack("!HH", datagram.protocol, len(datagram.payload))


def _sum_header(frame: bytearray) -> None:
    head = 4 * (frame[14] & 15)
    frame[24:26] = b"\0\0"
    frame[24:26] = struct.pack("!H", checksum(bytes(frame[14 : 14 + head])))


def _sum_payload(frame: bytearray, datagram: Datagram) -> None:
    at = SUM_AT.get(datagram.protocol)
    begin = ETHERNET_HEAD + datagram.head
    if at is None or len(datagram.payload) < at + 2:
        return
    frame[begin + at : begin + at + 2] = b"\0\0"
    total = checksum(_pseudo_header(datagram) + bytes(frame[begin : ETHERNET_HEAD + len(datagram.octets)]))
    frame[begin + at : begin + at + 2] = struct.pack("!H", total or (0xFFFF if datagram.protocol == UDP else 0))


def with_segment(frame: bytes, number: int, acknowledged: int, flags: int, options: bytes, data: bytes) -> bytes:
    """The frame of a segment with these in place of its own; its ports, its window and all below are as they were."""
    datagram = ipv4_of(frame)
    assert datagram is not None
    head = ETHERNET_HEAD + datagram.head
    word = struct.unpack_from("!H", frame, head + 12)[0] & 0x0F00 | (20 + len(options)) << 10 | flags
    segment = frame[head : head + 4] + struct.pack("!IIH", number, acknowledged, word) + frame[head + 14 : head + 20] + options + data
    made = bytearray(frame[:head] + segment)
    made[16:18] = struct.pack("!H", len(made) - ETHERNET_HEAD)
    _sum_header(made)
    whole = ipv4_of(bytes(made))
    assert whole is not None
    _sum_payload(made, whole)
    return bytes(made).ljust(60, b"\0")


def pieces(frame: bytes) -> List[bytes]:
    """The frames that went over the wire for one of a capture: its segment is cut where it is longer than a frame, and only the last has PSH and FIN."""
    datagram = ipv4_of(frame)
    segment = None if datagram is None else read_segment(datagram)
    if len(frame) <= MOST_FRAME or datagram is None or segment is None:
        return [frame]
    most = MOST_FRAME - ETHERNET_HEAD - datagram.head - 20 - len(segment.options)
    made = []
    for at in range(0, max(len(segment.data), 1), most):
        is_last = at + most >= len(segment.data)
        flags = segment.flags if is_last else segment.flags & ~(PSH | FIN)
        number = (segment.number + at) & 0xFFFFFFFF
        made.append(with_segment(frame, number, segment.acknowledged, flags, segment.options, segment.data[at : at + most]))
    return made


def without_options(frame: bytes, kinds: Tuple[int, ...]) -> bytes:
    """The frame of a segment whose options of these kinds are replaced by ones that say nothing."""
    datagram = ipv4_of(frame)
    segment = None if datagram is None else read_segment(datagram)
    assert segment is not None
    options = bytearray(segment.options)
    for kind, at, length in options_of(segment.options):
        if kind in kinds:
            options[at : at + length] = bytes([NO_OPERATION]) * length
    return with_segment(frame, segment.number, segment.acknowledged, segment.flags, bytes(options), segment.data)


class Reassembly:
    """The datagrams of one side that come in fragments, put together (RFC 791)."""

    def __init__(self) -> None:
        self._parts: Dict[bytes, List[Datagram]] = {}

    def add(self, datagram: Datagram) -> Optional[Datagram]:
        """The whole datagram that this one is, or that it is the last missing fragment of; else None."""
        if not datagram.offset and not datagram.more:
            return datagram
        name = name_of(datagram)
        parts = self._parts.setdefault(name, [])
        parts.append(datagram)
        end, octets = 0, b""
        for part in sorted(parts, key=lambda it: it.offset):
            if part.offset > end:
                return None
            octets += part.payload[end - part.offset :]
            end = max(end, part.offset + len(part.payload))
            if not part.more:
                del self._parts[name]
                first = min(parts, key=lambda it: it.offset)
                return first._replace(octets=first.octets[: first.head] + octets, more=False)
        return None


def name_of(datagram: Datagram) -> bytes:
    """What the fragments of one datagram have in common."""
    return datagram.octets[4:6] + datagram.octets[9:10] + datagram.octets[12:20]
