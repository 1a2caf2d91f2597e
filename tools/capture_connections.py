"""The connections of a host, for tools/check-capture: what each segment and call is to one of them."""

from __future__ import annotations

import ipaddress
from typing import NamedTuple, Optional, Tuple

from capture_frames import ACK, FIN, RST, SYN, Segment
from capture_streams import Faults, Incoming, Outgoing


class Ends(NamedTuple):
    """Both ends of a connection: the host's port, and the peer."""

    port: int
    peer: int
    peer_port: int


def name_of(addr: int, port: int) -> str:
    """An end, as 10.0.0.2:7."""
    return f"{ipaddress.IPv4Address(addr)}:{port}"


def count_of(number: int, what: str) -> str:
    """A count with its noun."""
    return f"{number:,} {what}{'' if number == 1 else 's'}"


class Connection:
    """A use of a pair of ends. `buffers` has how many octets the host takes unacknowledged, with the window scale option and without; None: there is no
    log."""

    def __init__(self, ends: Ends, buffers: Optional[Tuple[int, int]]) -> None:
        self.ends = ends
        self.incoming: Optional[Incoming] = None
        self.outgoing: Optional[Outgoing] = None
        self.faults = Faults()
        self.number: Optional[int] = None  # of the host's SYN
        self.frames_in = self.frames_out = 0
        self._buffers = buffers
        self._shift: Optional[int] = None
        self._peer_shift: Optional[int] = None
        self._syn_window = 0
        self._is_over = False

    @property
    def is_open(self) -> bool:
        """Whether the peer has acknowledged the host's SYN."""
        return self.outgoing is not None and self.outgoing.una > 0

    @property
    def is_scaled(self) -> bool:
        """Whether both SYNs had the window scale option (RFC 7323 section 2.2)."""
        return self._shift is not None and self._peer_shift is not None

    # What the peer's segments do.

    def hear_syn(self, number: int, shift: Optional[int]) -> None:
        """The peer's SYN is the one that counts."""
        self._peer_shift = shift
        self.incoming = Incoming(number, self.faults)
        if self.outgoing is not None:
            self.incoming.edge += self._syn_window

    def hear(self, segment: Segment) -> None:
        """A segment came between the two ends, for the host and unaltered."""
        self.frames_in += 1
        if self._is_over:
            return
        if self.incoming is None:
            self._hear_opening(segment)
        else:
            self._hear_segment(segment, self.incoming)

    def _hear_opening(self, segment: Segment) -> None:
        """In SYN-SENT (RFC 9293 section 3.10.7.3)."""
        acknowledges = bool(segment.flags & ACK)
        if acknowledges and (self.outgoing is None or self.outgoing.position(segment.acknowledged) != 1):
            return
        if segment.flags & RST:
            self._is_over = acknowledges
        elif segment.flags & SYN:
            self.hear_syn(segment.number, segment.shift)
            if acknowledges and self.outgoing is not None:
                self.outgoing.hear(0, 1, segment.window, True)

    def _hear_segment(self, segment: Segment, incoming: Incoming) -> None:
        """Later (RFC 9293 section 3.10.7.4): what is not acceptable, has RST or SYN or no ACK, or acknowledges what wasn't sent carries nothing."""
        has_fin = bool(segment.flags & FIN)
        begin, length = incoming.position(segment.number), len(segment.octets) + has_fin + bool(segment.flags & SYN)
        if not incoming.may_accept(begin, length):
            return
        if segment.flags & RST:
            self._is_over = incoming.is_known and begin == incoming.most
        elif not segment.flags & SYN and segment.flags & ACK and self.outgoing is not None:
            acknowledged = self.outgoing.position(segment.acknowledged)
            if acknowledged > self.outgoing.following:
                return
            is_known = incoming.is_known and incoming.most <= begin and incoming.is_acceptable(begin, length, incoming.most)
            self.outgoing.hear(begin, acknowledged, segment.window << (self._peer_shift or 0 if self.is_scaled else 0), is_known)
            if self.is_open:
                incoming.carry(begin, segment.octets, has_fin)

    # What the host's segments do.

    def send_syn(self, segment: Segment) -> None:
        """The host's SYN goes out, first or again, with ACK or without."""
        self.frames_out += 1
        if self.number is None:
            self.number = segment.number
            self.outgoing = Outgoing(segment.number, self._buffers is not None, self.faults)
        self._shift, self._syn_window = segment.shift, segment.window
        if segment.flags & ACK and self.incoming is not None:
            self.incoming.tell(segment.acknowledged, segment.window)

    def send(self, place: int, segment: Segment) -> None:
        """Another segment of the host's goes out in the frame at a place."""
        self.frames_out += 1
        if segment.flags & RST:
            return
        if self.outgoing is None or self.incoming is None:
            self.faults.note("sent", f"frame {place} has a segment before both sides had sent a SYN")
            return
        self.outgoing.send(place, segment.number, segment.octets, bool(segment.flags & FIN))
        if segment.flags & ACK:
            self.incoming.tell(segment.acknowledged, segment.window << (self._shift or 0 if self.is_scaled else 0))

    # Calls.

    def write(self, octets: bytes) -> None:
        """`send` took octets."""
        if self.outgoing is None or self._buffers is None:
            self.faults.note("sent", "octets were taken before the host's SYN went out")
        else:
            self.outgoing.write(octets, self._buffers[not self.is_scaled])

    def close_side(self) -> None:
        """The host's program closed its side."""
        if self.outgoing is not None:
            self.outgoing.is_closed = True

    def take(self, octets: bytes) -> None:
        """`recv` answered octets."""
        if self.incoming is None:
            self.faults.note("read", "octets were read, and no frame carried the peer's SYN")
        else:
            self.incoming.take(octets)

    def end(self) -> None:
        """`recv` answered the end."""
        if self.incoming is None:
            self.faults.note("end", "the end was read, and no frame carried the peer's SYN")
        else:
            self.incoming.end()

    # What became of it.

    @property
    def octets_read(self) -> int:
        """How many octets `recv` answered."""
        return 0 if self.incoming is None else self.incoming.read - 1

    @property
    def octets_sent(self) -> int:
        """How many octets went out, each counted once."""
        return 0 if self.outgoing is None else self.outgoing.sent

    def counts(self) -> str:
        """What moved, in words."""
        incoming, outgoing = self.incoming, self.outgoing
        carried = 0 if incoming is None else incoming.carried.front - 1
        has_fin = outgoing is not None and outgoing.fin_at is not None
        fin_came = incoming is not None and incoming.most > incoming.carried.front
        came = f"{carried:,} carried{' with the end' if fin_came else ''}"
        went = f"{self.octets_sent:,} sent{' with the end' if has_fin else ''}"
        if self._buffers is not None:
            has_ended = incoming is not None and incoming.has_ended
            came = f"{count_of(self.octets_read, 'octet')} read{' and the end' if has_ended else ''} of {came}"
            went = f"{went} of {0 if outgoing is None else outgoing.count:,} written"
        return f"{came}; {went}; {count_of(self.frames_in, 'frame')} in, {self.frames_out:,} out"
