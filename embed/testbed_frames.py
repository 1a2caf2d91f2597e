"""Ethernet frames in Python: those that the nodes of `testbed` make, what a frame says as text, and captures. No code of the stack is in it, so what it
says of a frame is a second opinion.

A frame is a whole Ethernet II frame without its check sequence. Here an address is a number with its first octet highest, and a MAC six octets.
"""

from __future__ import annotations

import ipaddress
import struct
from typing import BinaryIO, List, NamedTuple, Optional, SupportsBytes, Union

__all__ = ["Capture", "Packet", "arp", "checksum", "decode", "ethernet", "icmp_error", "ipv4"]

BROADCAST = b"\xff" * 6
ARP, IPV4 = 0x0806, 0x0800
REQUEST, REPLY = 1, 2
ICMP, TCP, UDP = 1, 6, 17
LEAST_FRAME = 60
DONT_FRAGMENT = 0x4000
# What `bytes` makes the octets of a frame of: these, or a packet of scapy.
Packet = Union[bytes, bytearray, memoryview, SupportsBytes]


def checksum(octets: bytes) -> int:
    """The Internet checksum of RFC 1071: 0 of octets that have theirs among them, where it holds."""
    if len(octets) % 2:
        octets += b"\0"
    total: int = sum(struct.unpack(f"!{len(octets) // 2}H", octets))
    while total >> 16:
        total = (total & 0xFFFF) + (total >> 16)
    return ~total & 0xFFFF


def ethernet(target: bytes, source: bytes, kind: int, payload: bytes) -> bytes:
    """A frame of a type, filled with zeros to 60 octets."""
    return (target + source + struct.pack("!H", kind) + payload).ljust(LEAST_FRAME, b"\0")


def arp(operation: int, source_mac: bytes, source: int, target_mac: bytes, target: int) -> bytes:
    """The frame of an ARP packet (RFC 826); a request goes to all."""
    packet = struct.pack("!HHBBH6sI6sI", 1, IPV4, 6, 4, operation, source_mac, source, target_mac, target)
    return ethernet(BROADCAST if operation == REQUEST else target_mac, source_mac, ARP, packet)


def ipv4(source: int, target: int, protocol: int, payload: bytes, ttl: int = 64) -> bytes:
    """A datagram of RFC 791 that may not be cut, with no options."""
    head = struct.pack("!BBHHHBBHII", 0x45, 0, 20 + len(payload), 0, DONT_FRAGMENT, ttl, protocol, 0, source, target)
    return head[:10] + struct.pack("!H", checksum(head)) + head[12:] + payload


def icmp_error(source: int, kind: int, code: int, datagram: bytes) -> bytes:
    """A datagram to the sender of another, with an ICMP error about that one (RFC 792)."""
    body = struct.pack("!BBHI", kind, code, 0, 0) + datagram[: 4 * (datagram[0] & 15) + 8]
    body = body[:2] + struct.pack("!H", checksum(body)) + body[4:]
    return ipv4(source, int.from_bytes(datagram[12:16], "big"), ICMP, body)


class Datagram(NamedTuple):
    """The header of an IPv4 datagram, and its octets without what the frame is filled with."""

    octets: bytes
    source: int
    target: int
    protocol: int
    ttl: int
    head: int
    offset: int
    more: bool

    @property
    def payload(self) -> bytes:
        """What stands behind the header."""
        return self.octets[self.head :]


def read_ipv4(octets: bytes) -> Optional[Datagram]:
    """The datagram that a frame carries; None where that has not the form of one. Its checksum isn't looked at."""
    if len(octets) < 20 or octets[0] >> 4 != 4:
        return None
    head, length = 4 * (octets[0] & 15), int.from_bytes(octets[2:4], "big")
    if not 20 <= head <= length <= len(octets):
        return None
    source, target = struct.unpack_from("!II", octets, 12)
    part = int.from_bytes(octets[6:8], "big")
    return Datagram(octets[:length], source, target, octets[9], octets[8], head, 8 * (part & 0x1FFF), bool(part & 0x2000))


def mac_text(mac: bytes) -> str:
    """A MAC as `02:00:00:00:00:01`."""
    return ":".join(f"{octet:02x}" for octet in mac)


def _addr(octets: bytes) -> str:
    return str(ipaddress.IPv4Address(octets))


def decode(frame: bytes) -> str:
    """What a frame says, a line a layer, in the words of `hostd decode` (docs/FORMATS.md): of one that can't be read the last line is a drop."""
    if len(frame) < 14:
        return "drop F1"
    kind = int.from_bytes(frame[12:14], "big")
    lines = [f"ether {mac_text(frame[:6])} {mac_text(frame[6:12])} {kind:04x}"]
    if kind == ARP:
        lines.append(_decode_arp(frame[14:]))
    elif kind == IPV4:
        lines.extend(_decode_ipv4(frame[14:]))
    else:
        lines.append("drop F3")
    return "\n".join(lines)


def _decode_arp(packet: bytes) -> str:
    if len(packet) < 28 or packet[:6] != b"\0\1\x08\0\6\4" or packet[6:8] not in (b"\0\1", b"\0\2"):
        return "drop F7"
    word = "request" if packet[7] == REQUEST else "reply"
    return f"arp {word} {mac_text(packet[8:14])} {_addr(packet[14:18])} {mac_text(packet[18:24])} {_addr(packet[24:28])}"


def _decode_ipv4(octets: bytes) -> List[str]:
    datagram = read_ipv4(octets)
    if datagram is None:
        return ["drop F4"]
    if checksum(octets[: datagram.head]):
        return ["drop F5"]
    flags = "+".join(name for bit, name in ((0x40, "DF"), (0x20, "MF")) if octets[6] & bit) or "-"
    line = (
        f"ipv4 {_addr(octets[12:16])} {_addr(octets[16:20])} proto {datagram.protocol} ttl {datagram.ttl} "
        f"id {int.from_bytes(octets[4:6], 'big')} off {datagram.offset} flags {flags} payload {len(datagram.payload)}"
    )
    above = {ICMP: _decode_icmp, TCP: _decode_tcp, UDP: _decode_udp}.get(datagram.protocol)
    return [line] if above is None or datagram.offset or datagram.more else [line, above(datagram)]


def _sum_above(datagram: Datagram) -> int:
    """The checksum over a segment or a user datagram and its pseudo header (RFC 9293 section 3.1)."""
    return checksum(datagram.octets[12:20] + struct.pack("!HH", datagram.protocol, len(datagram.payload)) + datagram.payload)


def _decode_icmp(datagram: Datagram) -> str:
    message = datagram.payload
    if len(message) < 8:
        return "drop F7"
    return "drop F8" if checksum(message) else f"icmp type {message[0]} code {message[1]} data {len(message) - 8}"


def _decode_udp(datagram: Datagram) -> str:
    if len(datagram.payload) < 8:
        return "drop F7"
    source, target, length, total = struct.unpack_from("!HHHH", datagram.payload)
    if not 8 <= length <= len(datagram.payload):
        return "drop F7"
    inside = datagram._replace(octets=datagram.octets[: datagram.head + length])
    return "drop F8" if total and _sum_above(inside) else f"udp {source} {target} data {length - 8}"


def _decode_tcp(datagram: Datagram) -> str:
    segment = datagram.payload
    if len(segment) < 20 or not 20 <= 4 * (segment[12] >> 4) <= len(segment):
        return "drop F7"
    if _sum_above(datagram):
        return "drop F8"
    source, target, number, acknowledged, word, window = struct.unpack_from("!HHIIHH", segment)
    head = 4 * (word >> 12)
    flags = "".join(name for bit, name in enumerate("FSRPAU") if word >> bit & 1) or "-"
    size = _segment_size(segment[20:head]) if word & 2 else None
    return (
        f"tcp {source} {target} seq {number} ack {acknowledged} flags {flags} win {window} "
        f"mss {'-' if size is None else size} data {len(segment) - head}"
    )


def _segment_size(options: bytes) -> Optional[int]:
    """What the option of the greatest segment size says (RFC 9293 section 3.7.1), if it is there."""
    while options and options[0] != 0:
        length = 1 if options[0] == 1 else options[1] if len(options) > 1 else 0
        if length == 0 or length > len(options):
            return None
        if options[0] == 2 and length == 4:
            return int.from_bytes(options[2:4], "big")
        options = options[length:]
    return None


class Capture:
    """A capture in the classic format of tcpdump: version 2.4, moments in microseconds, Ethernet."""

    def __init__(self, path: str) -> None:
        self._file: BinaryIO = open(path, "wb")
        self._file.write(struct.pack("<IHHIIII", 0xA1B2C3D4, 2, 4, 0, 0, 65535, 1))

    def add(self, nanoseconds: int, frame: bytes) -> None:
        """A frame that was seen at a moment."""
        seconds, rest = divmod(nanoseconds, 1_000_000_000)
        self._file.write(struct.pack("<IIII", seconds, rest // 1000, len(frame), len(frame)) + frame)

    def close(self) -> None:
        """Ends the capture, whose file is whole then; again: nothing."""
        self._file.close()
