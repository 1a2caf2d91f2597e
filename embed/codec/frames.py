"""Writes a capture of frames that are made here, by hand, with checksums of their own: frames.py FILE."""

import struct
import sys

A, B = bytes((10, 0, 0, 1)), bytes((10, 0, 0, 2))
MAC_A, MAC_B = bytes((2, 0, 0, 0, 0, 1)), bytes((2, 0, 0, 0, 0, 2))


def checksum(octets: bytes) -> int:
    padded = octets + bytes(len(octets) % 2)
    total: int = sum(struct.unpack(f">{len(padded) // 2}H", padded))
    while total >> 16:
        total = (total & 0xFFFF) + (total >> 16)
    return 0xFFFF - total


def summed(octets: bytes, at: int, before: bytes = b"", zero: int = 0) -> bytes:
    """With the checksum of it and of what stands before, put at this place."""
    return octets[:at] + struct.pack(">H", checksum(before + octets) or zero) + octets[at + 2 :]


def frame(kind: int, packet: bytes, padded: bool = False) -> bytes:
    made = MAC_B + MAC_A + struct.pack(">H", kind) + packet
    return made.ljust(60, b"\0") if padded else made


def ipv4(protocol: int, payload: bytes, flags: int = 2, offset: int = 0, options: bytes = b"", service: int = 0, ttl: int = 64) -> bytes:
    words, total = 5 + len(options) // 4, 20 + len(options) + len(payload)
    head = struct.pack(">BBHHHBBH", 0x40 + words, service, total, 0xBEEF, flags << 13 | offset, ttl, protocol, 0) + A + B + options
    return summed(head, 10) + payload


def pseudo(protocol: int, payload: bytes) -> bytes:
    return A + B + struct.pack(">BBH", 0, protocol, len(payload))


def icmp(kind: int, code: int, rest: bytes) -> bytes:
    return ipv4(1, summed(struct.pack(">BBH", kind, code, 0) + rest, 2))


def udp(payload: bytes, has_sum: bool = True) -> bytes:
    datagram = struct.pack(">HHHH", 5353, 53, 8 + len(payload), 0) + payload
    return summed(datagram, 6, pseudo(17, datagram), 0xFFFF) if has_sum else datagram


def tcp(flags: int, payload: bytes = b"", options: bytes = b"", urgent: int = 0) -> bytes:
    words = 5 + len(options) // 4
    segment = struct.pack(">HHIIBBHHH", 49152, 80, 0xFFFFFFFF, 7, words << 4, flags, 65535, 0, urgent) + options + payload
    return summed(segment, 16, pseudo(6, segment))


def arp(operation: int, padded: bool) -> bytes:
    return frame(0x0806, struct.pack(">HHBBH", 1, 0x0800, 6, 4, operation) + MAC_A + A + bytes(6) + B, padded)


SYN_OPTIONS = bytes.fromhex("020405b4 0402 080a 00000001 00000000 01 030307".replace(" ", ""))
REPORT = bytes.fromhex("0101 051a 00000001 00000002 00000003 00000004 00000005 00000006".replace(" ", ""))
UNKNOWN = bytes.fromhex("fd04abcd 00ffffff".replace(" ", ""))

FRAMES = [
    arp(1, False),
    arp(2, True),
    frame(0x86DD, bytes(40)),
    frame(0x0800, icmp(8, 0, struct.pack(">HH", 77, 1) + b"abcdefg")),
    frame(0x0800, icmp(3, 3, bytes(4) + ipv4(17, udp(b"gone"))[:28])),
    frame(0x0800, icmp(0, 0, b"\0\0\0\1"), True),
    frame(0x0800, ipv4(17, udp(b"")), True),
    frame(0x0800, ipv4(17, udp(b"odd"))),
    frame(0x0800, ipv4(17, udp(b"without a checksum", False))),
    frame(0x0800, ipv4(17, udp(bytes(1472)))),
    frame(0x0800, ipv4(17, bytes(1480), flags=1)),
    frame(0x0800, ipv4(17, bytes(13), flags=0, offset=185)),
    frame(0x0800, ipv4(47, b"some other protocol", flags=4)),
    frame(0x0800, ipv4(6, tcp(2, options=SYN_OPTIONS))),
    frame(0x0800, ipv4(6, tcp(0x10, options=REPORT), service=0xB9, ttl=1)),
    frame(0x0800, ipv4(6, tcp(0xD8, b"congested\n", urgent=3), options=bytes.fromhex("94040000"))),
    frame(0x0800, ipv4(6, tcp(0x11, b"x", options=UNKNOWN))),
    frame(0x0800, ipv4(6, tcp(4), flags=0), True),
]


def main() -> None:
    with open(sys.argv[1], "wb") as capture:
        capture.write(struct.pack("=IHHIIII", 0xA1B2C3D4, 2, 4, 0, 0, 65535, 1))
        for second, octets in enumerate(FRAMES):
            capture.write(struct.pack("=IIII", second, 0, len(octets), len(octets)) + octets)


main()
