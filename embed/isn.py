"""Numbers that nobody who doesn't see the frames can guess: initial sequence numbers (RFC 6528) and dynamic ports (RFC 6056), of a secret.

There is no I/O here: the program draws a secret of 16 octets once (`secrets.token_bytes(SECRET_SIZE)`), tells it to nobody, and hands it in with
the moment. `isn.h` has each call at length, and why ports are made so; `isn.c` answers the same.

A connection that the program opens, and one that a frame opens:

    host.bind(id, ("0.0.0.0", ports.port(secret, "10.0.0.1", peer)))  # again where it raises EADDRINUSE
    host.connect(now, isn_of(secret, host.would_connect(id, peer), microseconds), id, peer)

    host.deliver(now, isn_of(secret, host.would_open(frame), microseconds), frame)
"""

from __future__ import annotations

import ipaddress
import struct
from typing import List, Optional, Tuple, Union

__all__ = ["PORT_FIRST", "PORTS", "Ports", "SECRET_SIZE", "TABLE_SIZE", "isn_of", "siphash"]

# The octets of a secret, and of the table of Ports.
SECRET_SIZE = 16
TABLE_SIZE = 32
# The dynamic ports are this one and all above (RFC 6335 section 6): so many.
PORT_FIRST = 49152
PORTS = 16384

Endpoint = Tuple[Union[str, int], int]
_ALL = 2**64 - 1


def _rotated(word: int, by: int) -> int:
    return (word << by | word >> (64 - by)) & _ALL


def _round(a: int, b: int, c: int, d: int) -> Tuple[int, int, int, int]:
    a, c = (a + b) & _ALL, (c + d) & _ALL
    b, d = _rotated(b, 13) ^ a, _rotated(d, 16) ^ c
    a = _rotated(a, 32)
    a, c = (a + d) & _ALL, (c + b) & _ALL
    b, d = _rotated(b, 17) ^ c, _rotated(d, 21) ^ a
    return a, b, _rotated(c, 32), d


def siphash(secret: bytes, octets: bytes) -> int:
    """SipHash-2-4 (Aumasson and Bernstein, 2012) of octets, by a secret: a number of 64 bits."""
    low, high = struct.unpack("<QQ", secret)
    v = low ^ 0x736F6D6570736575, high ^ 0x646F72616E646F6D, low ^ 0x6C7967656E657261, high ^ 0x7465646279746573
    padded = octets + bytes(7 - len(octets) % 8) + bytes([len(octets) & 255])
    for (word,) in struct.iter_unpack("<Q", padded):
        v = _round(*_round(*v[:3], v[3] ^ word))
        v = (v[0] ^ word, *v[1:])
    a, b, c, d = _round(*_round(*_round(*_round(*v[:2], v[2] ^ 0xFF, v[3]))))
    return a ^ b ^ c ^ d


def _octets(end: Endpoint) -> bytes:
    addr, port = end
    return struct.pack(">IH", int(ipaddress.IPv4Address(addr)), port)


def isn_of(secret: bytes, pair: Optional[Tuple[Endpoint, Endpoint]], microseconds: int) -> int:
    """The initial sequence number of the connection between two ends, as `would_connect` and `would_open` answer them, at this moment of a clock that
    doesn't go back (RFC 6528); 0 of None, where any number will do."""
    if pair is None:
        return 0
    return (microseconds // 4 + siphash(secret, b"".join(map(_octets, pair)))) & 0xFFFFFFFF


class Ports:
    """What counts the dynamic ports: the table of RFC 6056 section 3.3.4, of octets that are drawn as the secret is (`secrets.token_bytes(TABLE_SIZE)`)."""

    def __init__(self, drawn: bytes) -> None:
        self._next: List[int] = list(struct.unpack("<16H", drawn))

    def port(self, secret: bytes, local: Union[str, int], peer: Endpoint) -> int:
        """A dynamic port for a connection from our address to `peer`; each call goes on to the next. Where it is in use call again, as often at most as
        the host has entries."""
        number = siphash(secret, _octets((local, 0))[:4] + _octets(peer))
        place = number >> 60
        port = PORT_FIRST + (number + self._next[place]) % PORTS
        self._next[place] = (self._next[place] + 1) & 0xFFFF
        return port
