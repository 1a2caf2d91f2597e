"""Captures and logs that tools/try-check-capture makes: frames of a host and of peers, and calls, in the order in which they are given. The sums are those of
embed/testbed_frames.py. And what is tried of them."""

from __future__ import annotations

import os
import random
import struct
import sys
from typing import Callable, List, NamedTuple, Optional, Tuple

TOP = os.path.dirname(os.path.dirname(os.path.realpath(__file__)))
sys.path.insert(0, os.path.join(TOP, "embed"))
from testbed_frames import IPV4, checksum, ethernet

HOST, PEER = 0x0A000002, 0x0A000001
HOST_MAC, PEER_MAC, OTHER_MAC = b"\2\0\n\0\0\2", b"\2\0\n\0\0\1", b"\2\0\n\0\0\3"
TCP, UDP = 6, 17
FIN, SYN, RST, ACK = 1, 2, 4, 16
MORE = 0x2000
BUFFERS = 1_048_576, 65_535
# What is read and written in trials, and the ends of most of them.
OCTETS = random.Random(9293).randbytes(200_000)
FRONT = OCTETS[:1000]
OURS, THEIRS = "10.0.0.2:7", "10.0.0.1:40000"
# How a check ends.
HOLDS, BREAKS = "the law holds$", "the law is BROKEN$"


def shown(addr: int) -> str:
    """An address as 10.0.0.2."""
    return ".".join(map(str, addr.to_bytes(4, "big")))


def packet(source: int, target: int, protocol: int, payload: bytes, identification: int = 0, part: int = 0, total: Optional[int] = None) -> bytes:
    """A datagram of IPv4, or a fragment by its flags and offset; with another checksum where one is given."""
    head = struct.pack("!BBHHHBBHII", 0x45, 0, 20 + len(payload), identification, part, 64, protocol, 0, source, target)
    return head[:10] + struct.pack("!H", checksum(head) if total is None else total) + head[12:] + payload


def summed(source: int, target: int, protocol: int, octets: bytes, at: int, spoiled: int = 0) -> bytes:
    """A segment or a user datagram with its checksum at a place, or another one."""
    total = checksum(struct.pack("!IIHH", source, target, protocol, len(octets)) + octets) ^ spoiled
    return octets[:at] + struct.pack("!H", total) + octets[at + 2 :]


def user_datagram(source: int, source_port: int, target: int, target_port: int, octets: bytes, spoiled: int = 0) -> bytes:
    """A datagram of UDP."""
    head = struct.pack("!HHHH", source_port, target_port, 8 + len(octets), 0)
    return summed(source, target, UDP, head + octets, 6, spoiled)


class Made:
    """A capture and its log on the way."""

    def __init__(self) -> None:
        self.frames: List[bytes] = []
        self.moments: List[int] = []
        self.lines: List[str] = []
        self.now = 1_700_000_000_000_000  # microseconds

    def hear(self, octets: bytes, mac: bytes = HOST_MAC) -> None:
        """A datagram comes to a MAC."""
        self._add(ethernet(mac, PEER_MAC, IPV4, octets))

    def say(self, octets: bytes) -> None:
        """The host sends a datagram."""
        self.call("next_frame")
        self._add(ethernet(PEER_MAC, HOST_MAC, IPV4, octets))

    def _add(self, frame: bytes) -> None:
        self.frames.append(frame)
        self.moments.append(self.now)
        self.now += 1000

    def call(self, words: str, octets: Optional[bytes] = None) -> None:
        """A call of the host's, and the octets of one that moves some."""
        moved = "" if octets is None else f" {octets.hex() or '-'}"
        self.lines.append(f"{len(self.frames)} {self.now // 1_000_000}.{self.now % 1_000_000:06} {words}{moved}")

    def save(self, capture: str, log: str, order: str = "<", magic: int = 0xA1B2C3D4) -> None:
        """Writes both. The magic number tells the unit of the moments' fractions."""
        unit = 1000 if magic == 0xA1B23C4D else 1
        with open(capture, "wb") as file:
            file.write(struct.pack(f"{order}IHHIIII", magic, 2, 4, 0, 0, 65535, 1))
            for moment, frame in zip(self.moments, self.frames):
                file.write(struct.pack(f"{order}IIII", moment // 1_000_000, moment % 1_000_000 * unit, len(frame), len(frame)) + frame)
        with open(log, "w", encoding="ascii") as text:
            text.write("\n".join([f"host {HOST_MAC.hex(':')} {shown(HOST)} buffers {BUFFERS[0]} {BUFFERS[1]}", *self.lines]) + "\n")


class Talk:
    """A connection of the host's, whose segments are given by positions: the SYN has 0, and the first octet 1."""

    def __init__(self, made: Made, id: int = 2, first: int = 1000, own: int = 5000, ports: Tuple[int, int] = (7, 40_000), shift: Optional[int] = None) -> None:
        self.made, self.id, self.first, self.own, self.ports, self.shift = made, id, first, own, ports, shift
        # What each side waits for: the host's octets behind which the peer acknowledges, and the peer's.
        self.peers = self.hosts = 1

    def accept(self, window: int = 65_535) -> Talk:
        """The peer opens it, and is told a window."""
        self.hear(0, flags=SYN)
        self.say(0, flags=SYN | ACK, window=window)
        self.hear(1)
        self.made.call(f"accept {self.id} {shown(HOST)}:{self.ports[0]} {shown(PEER)}:{self.ports[1]}")
        return self

    def begin_connect(self) -> Talk:
        """The host opens it, and its SYN is out."""
        self.made.call(f"connect {self.id} {shown(HOST)}:{self.ports[0]} {shown(PEER)}:{self.ports[1]}")
        self.say(0, flags=SYN)
        return self

    def hear(
        self,
        position: int,
        octets: bytes = b"",
        flags: int = ACK,
        window: int = 65_535,
        *,
        acknowledges: Optional[int] = None,
        source: int = PEER,
        target: int = HOST,
        mac: bytes = HOST_MAC,
        ports: Optional[Tuple[int, int]] = None,
        spoiled: int = 0,
        is_head_spoiled: bool = False,
        part: int = 0,
        options: bytes = b"",
    ) -> None:
        """A segment comes, in a datagram that has its flags and offset in `part`."""
        acknowledged = self.own + (self.hosts if acknowledges is None else acknowledges)
        segment = self._segment(ports or self.ports[::-1], self.first + position, acknowledged, flags, window, octets, options)
        whole = summed(source, target, TCP, segment, 16, spoiled)
        self.made.hear(packet(source, target, TCP, whole, part=part, total=0x1234 if is_head_spoiled else None), mac)

    def say(
        self,
        position: int,
        octets: bytes = b"",
        flags: int = ACK,
        window: int = 65_535,
        *,
        acknowledges: Optional[int] = None,
        spoiled: int = 0,
    ) -> None:
        """The host sends a segment. The peer acknowledges it from now on, unless it is said otherwise."""
        acknowledged = self.first + (self.peers if acknowledges is None else acknowledges)
        segment = self._segment(self.ports, self.own + position, acknowledged, flags, window, octets, b"")
        self.hosts = max(self.hosts, position + len(octets) + bool(flags & FIN))
        self.made.say(packet(HOST, PEER, TCP, summed(HOST, PEER, TCP, segment, 16, spoiled)))

    def _segment(self, ports: Tuple[int, int], number: int, acknowledged: int, flags: int, window: int, octets: bytes, options: bytes) -> bytes:
        if self.shift is not None and flags & SYN:
            options += b"\1\3\3" + bytes([self.shift])
        word = (20 + len(options)) << 10 | flags
        acknowledged = acknowledged % 2**32 if flags & ACK else 0
        return struct.pack("!HHIIHHHH", *ports, number % 2**32, acknowledged, word, window, 0, 0) + options + octets

    def send(self, octets: bytes) -> None:
        """`send` takes octets."""
        self.made.call(f"send {self.id}", octets)

    def recv(self, octets: bytes) -> None:
        """`recv` answers octets."""
        self.made.call(f"recv {self.id}", octets)

    def call(self, name: str) -> None:
        """Another call."""
        self.made.call(f"{name} {self.id}")

    def came(self, position: int, octets: bytes, has_fin: bool = False, window: int = 65_535) -> None:
        """Octets come in order, are read, and acknowledged."""
        self.hear(position, octets, ACK | FIN * has_fin)
        if octets:
            self.recv(octets)
        if has_fin:
            self.call("end")
        self.peers = position + len(octets) + has_fin
        self.say(self.hosts, window=window)

    def went(self, position: int, octets: bytes, has_fin: bool = False) -> None:
        """Octets are given, go out, and are acknowledged."""
        if octets:
            self.send(octets)
        if has_fin:
            self.call("shutdown")
        self.say(position, octets, ACK | FIN * has_fin)
        self.hear(self.peers)


class Trial(NamedTuple):
    """What is made, the status that it must have, and lines that must be printed, as regular expressions."""

    name: str
    make: Callable[[Made], None]
    status: int
    lines: Tuple[str, ...]


Make = Callable[[Made], None]


class Trials:
    """Trials, each of a function that makes a capture and its log."""

    def __init__(self) -> None:
        self.all: List[Trial] = []

    def holds(self, name: str, *lines: str) -> Callable[[Make], Make]:
        """Of what this function makes the law holds."""
        return self._taken(name, 0, (*lines, HOLDS))

    def breaks(self, name: str, *lines: str) -> Callable[[Make], Make]:
        """Of what this function makes it doesn't."""
        return self._taken(name, 1, (*lines, BREAKS))

    def _taken(self, name: str, status: int, lines: Tuple[str, ...]) -> Callable[[Make], Make]:
        def take(make: Make) -> Make:
            self.all.append(Trial(name, make, status, lines))
            return make

        return take
