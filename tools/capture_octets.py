"""Octets at positions, for tools/check-capture: which of them frames carried, and what else they carried there."""

from __future__ import annotations

from bisect import bisect_left, bisect_right
from typing import Iterator, List, Optional, Set, Tuple

# How many octets are compared at a time.
PIECE = 1024


class Octets:
    """Octets that were laid at positions from 1 on. `front` is the first position with none."""

    def __init__(self) -> None:
        self._octets = bytearray()
        # The ranges of positions that have octets: where each begins, and behind which it ends. No two of them touch.
        self._begins: List[int] = [1]
        self._ends: List[int] = [1]
        # Where octets were laid that differ from the first ones there, these.
        self._beside: Optional[Octets] = None

    @property
    def front(self) -> int:
        """The first position with no octet."""
        return self._ends[0]

    def front_octets(self) -> bytes:
        """The octets before `front`, of each position the first that was laid."""
        return bytes(self._octets[: self.front - 1])

    def lay(self, begin: int, octets: bytes) -> None:
        """Lays octets from a position on. Where there is one already both count."""
        end = begin + len(octets)
        if begin == self._ends[-1] == len(self._octets) + 1:
            self._octets += octets
            self._ends[-1] = end
            return
        for low, high in self._ranges(begin, end):
            self._lay_beside(low, octets[low - begin : high - begin])
        for low, high in self._gaps(begin, end):
            self._put(low, octets[low - begin : high - begin])
        self._join(begin, end)

    def _put(self, begin: int, octets: bytes) -> None:
        lacking = begin + len(octets) - 1 - len(self._octets)
        if lacking > 0:
            self._octets += bytes(lacking)
        self._octets[begin - 1 : begin - 1 + len(octets)] = octets

    def _lay_beside(self, begin: int, octets: bytes) -> None:
        if self._octets[begin - 1 : begin - 1 + len(octets)] != octets:
            self._beside = self._beside or Octets()
            self._beside.lay(begin, octets)

    def _ranges(self, begin: int, end: int) -> Iterator[Tuple[int, int]]:
        """The parts of these positions that have octets."""
        for place in range(bisect_right(self._ends, begin), len(self._ends)):
            if self._begins[place] >= end:
                return
            yield max(begin, self._begins[place]), min(end, self._ends[place])

    def _gaps(self, begin: int, end: int) -> List[Tuple[int, int]]:
        """The parts of these positions that have none."""
        gaps, at = [], begin
        for low, high in self._ranges(begin, end):
            if at < low:
                gaps.append((at, low))
            at = high
        return gaps + [(at, end)] if at < end else gaps

    def _join(self, begin: int, end: int) -> None:
        """Makes one range of these positions and all that they touch."""
        if begin == end:
            return
        low, high = bisect_left(self._ends, begin), bisect_right(self._begins, end)
        if low < high:
            begin, end = min(begin, self._begins[low]), max(end, self._ends[high - 1])
        self._begins[low:high] = [begin]
        self._ends[low:high] = [end]

    def at(self, position: int) -> Set[int]:
        """All octets that were laid at a position."""
        beside = set() if self._beside is None else self._beside.at(position)
        return {self._octets[position - 1], *beside} if any(self._ranges(position, position + 1)) else beside

    def first_other(self, begin: int, octets: bytes) -> Optional[int]:
        """The first position from this one on where there is an octet, and it isn't that of these; None where there is none."""
        for low, high in self._ranges(begin, begin + len(octets)):
            piece = octets[low - begin : high - begin]
            if self._octets[low - 1 : high - 1] != piece:
                return next(position for position, octet in enumerate(piece, low) if octet != self._octets[position - 1])
        return None

    def first_lacking(self, begin: int, octets: bytes) -> Optional[int]:
        """The first position from this one on where none of the octets that were laid is that of these; None where all are there."""
        for at in range(0, len(octets), PIECE):
            low, piece = begin + at, octets[at : at + PIECE]
            if self._octets[low - 1 : low - 1 + len(piece)] != piece or self._gaps(low, low + len(piece)):
                found = next((position for position, octet in enumerate(piece, low) if octet not in self.at(position)), None)
                if found is not None:
                    return found
        return None
