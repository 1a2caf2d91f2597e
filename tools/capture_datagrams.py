"""User datagrams of a host, for tools/check-capture: each that was read came whole in a frame, or in fragments of one key, and each that went out was
written.

A key is source, destination, protocol and identification (RFC 791 section 3.2). Fragments make a datagram where the oldest of them is no older than 60 s
when the last comes, with each octet from one of them at its place."""

from __future__ import annotations

import struct
from collections import Counter, defaultdict
from typing import Dict, List, NamedTuple, Optional, Set, Tuple

from capture_connections import Ends
from capture_frames import UDP, Packet, read_message
from capture_octets import Octets
from capture_streams import shown

# Nanoseconds: how old a fragment may be, and what the host's clock of milliseconds may differ by from that of the capture.
LONGEST_WAIT, TOLERANCE = 60_000_000_000, 100_000_000
HEAD = 8


class Fragment(NamedTuple):
    """A part of a datagram that came."""

    moment: int
    offset: int
    octets: bytes
    more: bool


class Tally:
    """Of datagrams between two ends how many were read and written, and how many of the latter went out."""

    def __init__(self) -> None:
        self.read = self.octets_read = self.written = self.octets_written = self.sent = 0


class Datagrams:
    """All datagrams of a host at an address. Without a log none are read or written."""

    def __init__(self, addr: int, has_log: bool) -> None:
        self.tallies: Dict[Ends, Tally] = defaultdict(Tally)
        self.faults: Dict[Ends, str] = {}
        self._addr, self._has_log = addr, has_log
        self._whole: Dict[Ends, Set[bytes]] = defaultdict(set)
        self._fragments: Dict[Tuple[int, int], List[Fragment]] = defaultdict(list)
        self._begun: Dict[Ends, List[int]] = defaultdict(list)
        self._waiting: Counter[Tuple[Ends, bytes]] = Counter()
        self._going: Dict[Tuple[int, int], Octets] = {}
        self._ends: Dict[Tuple[int, int], int] = {}

    # What came.

    def hear(self, moment: int, packet: Packet) -> None:
        """A datagram or a fragment came for the host."""
        if packet.is_whole:
            message = read_message(packet)
            if message is not None:
                self._whole[Ends(message.target_port, packet.source, message.source_port)].add(message.octets)
            return
        self._fragments[packet.source, packet.identification].append(Fragment(moment, packet.offset, packet.payload, packet.more))
        if packet.offset == 0 and len(packet.payload) >= HEAD:
            ports = int.from_bytes(packet.payload[:2], "big"), int.from_bytes(packet.payload[2:4], "big")
            self._begun[Ends(ports[1], packet.source, ports[0])].append(packet.identification)

    def read(self, ends: Ends, room: int, octets: bytes) -> None:
        """`recvfrom` answered these octets to a program that had room for so many."""
        tally = self.tallies[ends]
        tally.read += 1
        tally.octets_read += len(octets)
        if octets in self._whole[ends] or self._came_in_fragments(ends, room, octets):
            return
        if any(whole[:room] == octets for whole in self._whole[ends]):
            return
        number = f"datagram {tally.read} that was read, of {len(octets):,} octets, came in no frame and no fragments"
        self.faults.setdefault(ends, f"{number}{self._nearest(ends, octets)}")

    def _came_in_fragments(self, ends: Ends, room: int, octets: bytes) -> bool:
        return any(_makes(self._fragments[ends.peer, key], ends, self._addr, room, octets) for key in reversed(self._begun[ends]))

    def _nearest(self, ends: Ends, octets: bytes) -> str:
        """Where the octets differ from those that came in their place, of a datagram as long."""
        candidates = [whole for whole in self._whole[ends] if len(whole) == len(octets)]
        for key in self._begun[ends]:
            laid = _laid(self._fragments[ends.peer, key])
            if laid.front - 1 - HEAD == len(octets):
                candidates.append(bytes(min(laid.at(position)) for position in range(1 + HEAD, laid.front)))
        found = [next(place for place, (one, other) in enumerate(zip(octets, it)) if one != other) for it in candidates if it != octets]
        if not found:
            return ""
        at = max(found)
        carried = {it[at] for it, place in zip([it for it in candidates if it != octets], found) if place == at}
        return f"; at octet {at + 1:,} it has {shown({octets[at]})}, and frames carried {shown(carried)} there"

    # What went out.

    def write(self, ends: Ends, octets: bytes) -> None:
        """`sendto` took a datagram."""
        tally = self.tallies[ends]
        tally.written += 1
        tally.octets_written += len(octets)
        self._waiting[ends, octets] += 1

    def send(self, place: int, packet: Packet) -> None:
        """The frame at a place has a datagram of the host's, or a fragment."""
        whole = packet if packet.is_whole else self._put_together(packet)
        if whole is None:
            return
        message = read_message(whole)
        ends = Ends(0, packet.target, 0) if message is None else Ends(message.source_port, packet.target, message.target_port)
        self.tallies[ends].sent += 1
        if message is None:
            self.faults.setdefault(ends, f"frame {place} has a user datagram without its form, or with a wrong sum")
        elif self._has_log and not self._waiting[ends, message.octets]:
            self.faults.setdefault(ends, f"frame {place} has a datagram of {len(message.octets):,} octets that nobody wrote, or that went out before")
        else:
            self._waiting[ends, message.octets] -= 1

    def _put_together(self, packet: Packet) -> Optional[Packet]:
        """The datagram that a fragment of the host's completes; None where others are to come."""
        key = packet.target, packet.identification
        laid = self._going.setdefault(key, Octets())
        laid.lay(1 + packet.offset, packet.payload)
        if not packet.more:
            self._ends[key] = 1 + packet.offset + len(packet.payload)
        if laid.front != self._ends.get(key):
            return None
        del self._going[key], self._ends[key]
        return packet._replace(offset=0, more=False, payload=laid.front_octets())


def _laid(fragments: List[Fragment]) -> Octets:
    laid = Octets()
    for fragment in fragments:
        laid.lay(1 + fragment.offset, fragment.octets)
    return laid


def _makes(fragments: List[Fragment], ends: Ends, addr: int, room: int, octets: bytes) -> bool:
    """Whether fragments of one key, none older than it may be when the last of them came, make a datagram that reads so."""
    heads = [head for head in {it.octets[:HEAD] for it in fragments if not it.offset} if _reads(head, ends, addr, room, octets)]
    for last in range(len(fragments) if heads else 0, 0, -1):
        oldest = fragments[last - 1].moment - LONGEST_WAIT - TOLERANCE
        together = [it for it in fragments[:last] if it.moment >= oldest]
        if _covers(together, {it.octets[:HEAD] for it in together if not it.offset}.intersection(heads), octets):
            return True
    return False


def _reads(head: bytes, ends: Ends, addr: int, room: int, octets: bytes) -> bool:
    """Whether a datagram that begins with this header reads so."""
    source_port, target_port, length = struct.unpack_from("!HHH", head)
    if (target_port, source_port) != (ends.port, ends.peer_port) or len(octets) != min(length - HEAD, room):
        return False
    is_cut = length - HEAD > room
    return is_cut or read_message(Packet(ends.peer, addr, UDP, 0, 0, False, head + octets)) is not None


def _covers(fragments: List[Fragment], heads: Set[bytes], octets: bytes) -> bool:
    """Whether fragments leave no gap before an end that one of them has, and have these octets behind one of the headers, each in its place."""
    laid = _laid(fragments)
    has_octets = bool(heads) and laid.first_lacking(1 + HEAD, octets) is None
    return has_octets and any(1 + HEAD + len(octets) <= 1 + it.offset + len(it.octets) <= laid.front for it in fragments if not it.more)
