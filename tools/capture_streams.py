"""The two streams of a connection, for tools/check-capture: what frames carried to the host and was read there, and what was written there and goes out.

Octets have positions: the SYN has 0, the first octet 1. Each stream notes the first fault of each kind."""

from __future__ import annotations

from typing import Dict, Optional, Set

from capture_octets import Octets

ALL, HALF = 1 << 32, 1 << 31


class Faults:
    """What doesn't hold of a connection, the first of each kind."""

    def __init__(self) -> None:
        self.found: Dict[str, str] = {}

    def note(self, kind: str, text: str) -> None:
        """Keeps a fault, where it is the first of its kind."""
        self.found.setdefault(kind, text)


def nearest(number: int, first: int, near: int) -> int:
    """The position of a sequence number of a stream that begins with the number `first`: of those that it may have the nearest to another."""
    return near + (number - first - near + HALF) % ALL - HALF


def shown(octets: Set[int]) -> str:
    """Octets in hexadecimal."""
    return " or ".join(f"0x{octet:02x}" for octet in sorted(octets))


class Incoming:
    """The octets for the host. RCV.NXT lies between `told`, which the host acknowledged last, and `most`; a frame that finds no room may be dropped."""

    def __init__(self, first: int, faults: Faults) -> None:
        self.carried = Octets()
        self.told = self.edge = self.read = 1
        # Whether RCV.NXT was `most` when the host spoke last, so that it is known.
        self.is_known = True
        self.has_ended = False
        self._first, self._faults = first, faults
        self._fins: Set[int] = set()

    @property
    def most(self) -> int:
        """The position behind all that was carried without a gap, a FIN too."""
        front = self.carried.front
        return front + 1 if front in self._fins else front

    def position(self, number: int) -> int:
        """The position of a sequence number of the peer's."""
        return nearest(number, self._first, self.carried.front)

    def is_acceptable(self, begin: int, length: int, following: int) -> bool:
        """Whether a segment is, where RCV.NXT is `following` (RFC 9293 section 3.10.7.4): one without length also right before RCV.NXT, and at the edge."""
        if length == 0:
            return following - 1 <= begin <= self.edge
        return following < self.edge and (following <= begin < self.edge or following <= begin + length - 1 < self.edge)

    def may_accept(self, begin: int, length: int) -> bool:
        """Whether a segment is acceptable for a RCV.NXT that the host may have."""
        return self.is_acceptable(begin, length, self.told) or self.is_acceptable(begin, length, self.most)

    def carry(self, begin: int, octets: bytes, has_fin: bool) -> None:
        """An acceptable segment carries octets. Those count that are in the window."""
        end = begin + len(octets)
        low, high = max(begin, self.told), min(end, self.edge)
        if low < high:
            self.carried.lay(low, octets[low - begin : high - begin])
        if has_fin and self.told <= end < self.edge:
            self._fins.add(end)

    def tell(self, number: int, window: int) -> None:
        """The host acknowledges what is before a number, and has a window behind it, whose edge never goes back."""
        position = self.position(number)
        if position > self.most:
            self._faults.note("acknowledged", f"the host acknowledges position {position - 1}, and no frame carried position {self.most}")
            position = self.most
        self.told = max(self.told, position)
        self.is_known = position >= self.carried.front
        self.edge = max(self.edge, position + window)

    def take(self, octets: bytes) -> None:
        """`recv` answers octets."""
        lacking = self.carried.first_lacking(self.read, octets)
        if self.has_ended:
            self._faults.note("end", f"octets were read behind the end, from position {self.read} on")
        elif lacking is not None:
            carried = self.carried.at(lacking)
            what = f"frames carried {shown(carried)} there" if carried else "no frame carried an octet there"
            self._faults.note("read", f"at position {lacking} {shown({octets[lacking - self.read]})} was read, and {what}")
        self.read += len(octets)

    def end(self) -> None:
        """`recv` answers the end of the stream."""
        self.has_ended = True
        if self.read not in self._fins:
            fins = ", ".join(map(str, sorted(self._fins)))
            carried = f"frames carried one at {fins}" if fins else "no frame carried one"
            self._faults.note("end", f"the end was read at position {self.read}, where no frame carried a FIN; {carried}")


class Outgoing:
    """The octets of the host. Where there is no log, `written` has what went out first at each position."""

    def __init__(self, first: int, has_log: bool, faults: Faults) -> None:
        self.written = Octets()
        self.una = 0
        self.following = 1  # SND.NXT, the SYN is out
        self.is_closed = False
        self.fin_at: Optional[int] = None
        self._first, self._has_log, self._faults = first, has_log, faults
        # The window's end, and SND.WL1 and SND.WL2 of the segment that told it. Once one can't be known, the furthest counts that was told.
        self._edge = self._wl1 = self._wl2 = 0
        self._is_known = True

    @property
    def sent(self) -> int:
        """How many octets went out."""
        return self.following - 1 - (self.fin_at is not None)

    @property
    def count(self) -> int:
        """How many octets were written."""
        return self.written.front - 1

    def position(self, number: int) -> int:
        """The position of a sequence number of the host's."""
        return nearest(number, self._first, self.following)

    def write(self, octets: bytes, buffer: int) -> None:
        """`send` took octets."""
        self.written.lay(self.written.front, octets)
        acknowledged = min(max(self.una - 1, 0), self.count)
        if self.count - acknowledged > buffer:
            self._faults.note("taken", f"{self.count} octets are taken where {acknowledged} are acknowledged and the buffer has {buffer}")
        if self.is_closed and octets:
            self._faults.note("closed", "octets were taken after the host had closed its side")

    def hear(self, begin: int, acknowledged: int, window: int, is_known: bool) -> None:
        """A segment of the peer acknowledges positions and tells a window (RFC 9293 section 3.10.7.4). `is_known`: it is acceptable for certain, and its
        number not below RCV.NXT."""
        if acknowledged < self.una:
            return
        self.una, edge = acknowledged, acknowledged + window
        self._is_known = self._is_known and is_known
        if not self._is_known:
            self._edge = max(self._edge, edge)
        elif self._wl1 < begin or (self._wl1 == begin and self._wl2 <= acknowledged):
            self._edge, self._wl1, self._wl2 = edge, begin, acknowledged

    def send(self, place: int, number: int, octets: bytes, has_fin: bool) -> None:
        """The frame at a place of the capture goes out."""
        begin = self.position(number)
        end = begin + len(octets)
        if octets:
            self._check_window(place, begin, end)
            self._check_octets(place, begin, octets)
        if has_fin:
            self._check_fin(place, end)
        if octets or has_fin:
            self.following = max(self.following, end + has_fin)

    def _check_window(self, place: int, begin: int, end: int) -> None:
        is_probe = end - begin == 1 and begin == self.una >= self._edge
        if end > max(self._edge, self.following) and not is_probe:
            past = max(begin, self._edge, self.following)
            self._faults.note("window", f"frame {place} has the octet at position {past} for the first time, and the peer's window ends at {self._edge}")

    def _check_octets(self, place: int, begin: int, octets: bytes) -> None:
        if begin < 1:
            self._faults.note("sent", f"frame {place} has an octet at position {begin}, before the first")
            return
        if self.fin_at is not None and begin + len(octets) > self.fin_at:
            self._faults.note("sent", f"frame {place} has an octet at position {max(begin, self.fin_at)}, and the FIN stood at {self.fin_at}")
        found = self.written.first_lacking(begin, octets) if self._has_log else self.written.first_other(begin, octets)
        if found is not None:
            known = self.written.at(found)
            before = f"{shown(known) if known else 'no octet'} {'was written' if self._has_log else 'went out before'} there"
            self._faults.note("sent", f"frame {place} has {shown({octets[found - begin]})} at position {found}, and {before}")
        if not self._has_log:
            self.written.lay(begin, octets)

    def _check_fin(self, place: int, position: int) -> None:
        if self._has_log and not self.is_closed:
            self._faults.note("fin", f"frame {place} has a FIN at position {position}, and the host's side isn't closed")
        elif self._has_log and position != self.written.front:
            self._faults.note("fin", f"frame {place} has a FIN at position {position}, and {self.count} octets were written")
        elif self.fin_at not in (None, position):
            self._faults.note("fin", f"frame {place} has a FIN at position {position}, and an earlier one stood at {self.fin_at}")
        elif position < self.following - (self.fin_at is not None):
            self._faults.note("fin", f"frame {place} has a FIN at position {position}, and octets up to {self.following - 1} went out before")
        self.fin_at = position if self.fin_at is None else self.fin_at
