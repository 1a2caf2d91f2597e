"""The log of `tap --log FILE`, for tools/check-capture: the socket calls of a host, in their order among the frames of its capture.

The first line tells of the host; each further one tells of a call that was not refused:

    host MAC ADDR buffers SCALED PLAIN
    FRAMES MOMENT next_frame
    FRAMES MOMENT connect|accept ID OURS PEER
    FRAMES MOMENT send|recv ID OCTETS
    FRAMES MOMENT end|shutdown|close|abort ID
    FRAMES MOMENT sendto ID OURS PEER OCTETS
    FRAMES MOMENT recvfrom ID OURS PEER ROOM OCTETS

FRAMES is how many frames the capture had before the call; what came before it is therefore known whatever the moments are, which are seconds of the same
clock as the capture's. `next_frame` gave the frame that follows, so every other frame is one that the host was given. ID is the socket; OURS and PEER are
ends, as 10.0.0.2:7; OCTETS are in hexadecimal, or `-` where there are none: those that `send` took or `recv` answered. `end` is a `recv` that answered
the end of the stream. SCALED and PLAIN are how many octets `send` takes that the peer has not acknowledged, with the window scale option and without it."""

from __future__ import annotations

import ipaddress
import re
from typing import Any, BinaryIO, Dict, Iterator, NamedTuple, Optional, Tuple

from replay_packets import Refused

_FIRST = re.compile(rb"host ((?:[0-9a-f]{2}:){5}[0-9a-f]{2}) (\S+) buffers (\d{1,15}) (\d{1,15})\n")
_FIELDS = {
    b"next_frame": "",
    b"connect": "id ours peer",
    b"accept": "id ours peer",
    b"send": "id octets",
    b"recv": "id octets",
    b"end": "id",
    b"shutdown": "id",
    b"close": "id",
    b"abort": "id",
    b"sendto": "id ours peer octets",
    b"recvfrom": "id ours peer room octets",
}

# An address and a port.
Endpoint = Tuple[int, int]


class Call(NamedTuple):
    """A call of the log, and how many frames the capture had before it. What a call has not is 0 or None."""

    line: int
    frames: int
    name: str
    id: int = 0
    ours: Optional[Endpoint] = None
    peer: Optional[Endpoint] = None
    room: int = 0
    octets: bytes = b""


class Log:
    """A log that is read line by line."""

    def __init__(self, path: str, file: BinaryIO) -> None:
        self._path, self._file = path, file
        found = _FIRST.fullmatch(file.readline())
        if found is None:
            raise Refused(f"{path} is no log of tap: its first line tells of no host")
        try:
            self.addr = int(ipaddress.IPv4Address(found[2].decode("ascii", "replace")))
        except ValueError:
            raise Refused(f"{path} is no log of tap: its first line has no address") from None
        self.mac = bytes.fromhex(found[1].decode().replace(":", ""))
        self.buffers = int(found[3]), int(found[4])
        self.is_whole = True

    def calls(self) -> Iterator[Call]:
        """The calls in their order. A last line without its end is passed over."""
        frames = 0
        for number, line in enumerate(self._file, 2):
            if not line.endswith(b"\n"):
                self.is_whole = False
                return
            call = self._read(number, line)
            if call.frames < frames:
                raise Refused(f"{self._path}:{number}: the capture has fewer frames than before")
            frames = call.frames
            yield call

    def _read(self, number: int, line: bytes) -> Call:
        words = line.split()
        names = _FIELDS.get(words[2]) if len(words) > 2 else None
        if names is None or len(words) != 3 + len(names.split()):
            raise Refused(f"{self._path}:{number}: this is no call of a log")
        try:
            fields: Dict[str, Any] = {name: _READERS[name](word) for name, word in zip(names.split(), words[3:])}
            return Call(number, _number(words[0]), words[2].decode(), **fields)
        except ValueError as fault:
            raise Refused(f"{self._path}:{number}: {fault}") from None


def _number(word: bytes) -> int:
    if not word.isdigit() or len(word) > 18:
        raise ValueError(f"'{word.decode('ascii', 'replace')}' is no number")
    return int(word)


def _endpoint(word: bytes) -> Endpoint:
    addr, _, port = word.partition(b":")
    return int(ipaddress.IPv4Address(addr.decode("ascii", "replace"))), _number(port)


def _octets(word: bytes) -> bytes:
    return b"" if word == b"-" else bytes.fromhex(word.decode("ascii", "replace"))


_READERS = {"id": _number, "ours": _endpoint, "peer": _endpoint, "room": _number, "octets": _octets}
