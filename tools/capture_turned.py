"""A capture of tap and its log with one thing changed, for tools/try-check-capture. Each change writes a changed pair, and answers the line with which
tools/check-capture must refuse it, as a regular expression."""

from __future__ import annotations

import os
import struct
import sys
from collections import defaultdict
from typing import Dict, List, NamedTuple, Optional, Tuple

TOP = os.path.dirname(os.path.dirname(os.path.realpath(__file__)))
sys.path.insert(0, os.path.join(TOP, "embed"))
from testbed_frames import TCP, checksum

HEAD, RECORD_HEAD, ETHERNET_HEAD = 24, 16, 14
FIN, SYN = 1, 2
ALL = 1 << 32


class Unusable(Exception):
    """Why a pair of files can't be changed so."""


class Came(NamedTuple):
    """A segment that came: its place among the frames, where its octets begin in the frame, its number, its octets and its flags."""

    place: int
    at: int
    number: int
    octets: bytes
    flags: int


class Pair:
    """The frames of a capture and the lines of its log, and of these what is about the connection that was given most octets, whose begin and end the
    capture has."""

    def __init__(self, capture: str, log: str) -> None:
        with open(capture, "rb") as file:
            self._octets = file.read()
        with open(log, encoding="ascii") as text:
            self.lines = text.read().splitlines()
        self._mac = bytes.fromhex(self.lines[0].split()[1].replace(":", ""))
        self.frames = self._read_frames()
        came: Dict[Tuple[str, str], List[Came]] = defaultdict(list)
        for place, frame in enumerate(self.frames):
            found = self._read_segment(place, frame)
            if found is not None:
                came[found[0]].append(found[1])
        self.id, self.came = self._chosen(came)
        self.first = next(it.number for it in self.came if it.flags & SYN)

    def _read_frames(self) -> List[bytearray]:
        frames, at = [], HEAD
        while at + RECORD_HEAD <= len(self._octets):
            end = at + RECORD_HEAD + struct.unpack_from("<I", self._octets, at + 8)[0]
            frames.append(bytearray(self._octets[at:end]))
            at = end
        return frames

    def _read_segment(self, place: int, record: bytearray) -> Optional[Tuple[Tuple[str, str], Came]]:
        """Whose segment a frame for the host has: both ends, the host's first."""
        frame = bytes(record[RECORD_HEAD:])
        if frame[:6] != self._mac or frame[12:14] != b"\x08\x00" or frame[23] != TCP:
            return None
        head = ETHERNET_HEAD + 4 * (frame[14] & 15)
        at = head + 4 * (frame[head + 12] >> 4)
        source_port, target_port, number = struct.unpack_from("!HHI", frame, head)
        octets = frame[at : ETHERNET_HEAD + int.from_bytes(frame[16:18], "big")]
        ends = f"{_addr(frame[30:34])}:{target_port}", f"{_addr(frame[26:30])}:{source_port}"
        return ends, Came(place, RECORD_HEAD + at, number, octets, frame[head + 13])

    def _chosen(self, came: Dict[Tuple[str, str], List[Came]]) -> Tuple[str, List[Came]]:
        """The socket of the connection that was read most of, and its segments."""
        opened = {words[3]: (words[4], words[5]) for words in map(str.split, self.lines[1:]) if words[2] in ("accept", "connect")}
        ended = {line.split()[3] for line in self.lines[1:] if line.split()[2] == "end"}
        sizes = {
            id: sum(len(it.octets) for it in came[ends])
            for id, ends in opened.items()
            if id in ended and len({it.number for it in came[ends] if it.flags & SYN}) == 1
        }
        if not sizes or not max(sizes.values()):
            raise Unusable("no connection of the pair was given octets and their end")
        id = max(sizes, key=sizes.__getitem__)
        return id, came[opened[id]]

    def reads(self) -> List[Tuple[int, int, int]]:
        """The lines of the log by which octets of the connection were read: which line, the position of its first octet, and how many there are."""
        found, position = [], 1
        for number, line in enumerate(self.lines):
            words = line.split()
            if words[2:4] == ["recv", self.id]:
                found.append((number, position, len(words[4]) // 2))
                position += len(words[4]) // 2
        return found

    def position(self, number: int) -> int:
        """The position that a number of the peer's has, of a stream of less than 2^32 octets."""
        return (number - self.first) % ALL

    def carried_once(self) -> Came:
        """A segment in the middle of those whose octets came in no other and were read."""
        last = self.reads()[-1]
        spans = sorted((self.position(it.number), self.position(it.number) + len(it.octets), it) for it in self.came if it.octets)
        furthest, alone = 0, []
        for place, (begin, end, it) in enumerate(spans):
            following = spans[place + 1][0] if place + 1 < len(spans) else end
            if furthest <= begin and end <= following and end <= last[1] + last[2]:
                alone.append(it)
            furthest = max(furthest, end)
        if not alone:
            raise Unusable("no segment of the pair alone carried octets that were read")
        return alone[len(alone) // 2]

    def put_sum_right(self, place: int) -> None:
        """Makes the checksum of a segment anew."""
        frame = self.frames[place]
        ip = RECORD_HEAD + ETHERNET_HEAD
        head, end = ip + 4 * (frame[ip] & 15), ip + int.from_bytes(frame[ip + 2 : ip + 4], "big")
        frame[head + 16 : head + 18] = bytes(2)
        total = checksum(bytes(frame[ip + 12 : ip + 20]) + struct.pack("!HH", TCP, end - head) + bytes(frame[head:end]))
        frame[head + 16 : head + 18] = struct.pack("!H", total)

    def take_out(self, place: int) -> None:
        """Takes a frame out, as if it had never come."""
        del self.frames[place]
        for number, line in enumerate(self.lines[1:], 1):
            count, _, rest = line.partition(" ")
            if int(count) > place:
                self.lines[number] = f"{int(count) - 1} {rest}"

    def save(self, capture: str, log: str) -> None:
        """Writes both."""
        with open(capture, "wb") as file:
            file.write(self._octets[:HEAD] + b"".join(self.frames))
        with open(log, "w", encoding="ascii") as text:
            text.write("\n".join(self.lines) + "\n")


def _addr(octets: bytes) -> str:
    return ".".join(map(str, octets))


def turn_read(capture: str, log: str, to_capture: str, to_log: str) -> str:
    """an octet that was read is turned"""
    pair = Pair(capture, log)
    reads = pair.reads()
    number, position, _ = reads[len(reads) // 2]
    words = pair.lines[number].split()
    octets = bytearray.fromhex(words[4])
    was = octets[0]
    octets[0] ^= 1
    pair.lines[number] = " ".join([*words[:4], octets.hex()])
    pair.save(to_capture, to_log)
    return f"at position {position} 0x{was ^ 1:02x} was read, and frames carried 0x{was:02x} there$"


def turn_carried(capture: str, log: str, to_capture: str, to_log: str) -> str:
    """an octet that a frame carried is turned, and its sum put right"""
    pair = Pair(capture, log)
    came = pair.carried_once()
    middle = len(came.octets) // 2
    was = came.octets[middle]
    pair.frames[came.place][came.at + middle] ^= 1
    pair.put_sum_right(came.place)
    pair.save(to_capture, to_log)
    return f"at position {pair.position(came.number) + middle} 0x{was:02x} was read, and frames carried 0x{was ^ 1:02x} there$"


def take_frame_out(capture: str, log: str, to_capture: str, to_log: str) -> str:
    """a frame with octets that were read is taken out"""
    pair = Pair(capture, log)
    came = pair.carried_once()
    pair.take_out(came.place)
    pair.save(to_capture, to_log)
    return f"at position {pair.position(came.number)} 0x{came.octets[0]:02x} was read, and no frame carried an octet there$"


def move_fin(capture: str, log: str, to_capture: str, to_log: str) -> str:
    """the FIN is moved by one"""
    pair = Pair(capture, log)
    _, position, count = pair.reads()[-1]
    for came in pair.came:
        if came.flags & FIN:
            head = RECORD_HEAD + ETHERNET_HEAD + 4 * (pair.frames[came.place][RECORD_HEAD + ETHERNET_HEAD] & 15)
            struct.pack_into("!I", pair.frames[came.place], head + 4, (came.number + 1) % ALL)
            pair.put_sum_right(came.place)
    pair.save(to_capture, to_log)
    end = position + count
    return f"the end was read at position {end}, where no frame carried a FIN; (frames carried one at {end + 1}|no frame carried one)$"


CHANGES = turn_read, turn_carried, take_frame_out, move_fin
