"""The nodes of a `testbed` network that are no hosts: links, switches, routers and probes. None has code of the stack."""

from __future__ import annotations

import errno
import ipaddress
import random
import struct
from typing import Callable, Dict, Generator, List, NamedTuple, Optional, Protocol, Tuple, Union

from testbed_frames import ARP, ICMP, IPV4, REPLY, REQUEST, Datagram, Packet, arp, checksum, ethernet, icmp_error, read_ipv4
from testbed_tasks import MILLISECOND, Call, Crowd, Wait

__all__ = ["Link", "Node", "Port", "Probe", "Router", "Switch"]

SECOND = 1000 * MILLISECOND
# The ICMP errors that a router makes, by type and code, and the types that no error may be about (RFC 792, RFC 1122 section 3.2.2).
UNREACHABLE, NETWORK, HOST, TIME_EXCEEDED = 3, 0, 1, 11
ERRORS = (3, 4, 5, 11, 12)
# How many datagrams wait at a router for the MAC of one neighbour, and how often it asks for that.
MOST_WAITING, REQUESTS = 16, 3


class Ground(Protocol):
    """What a node needs of its network."""

    clock: int
    dice: random.Random

    def at(self, clock: int, act: Callable[[], None]) -> None:
        """Has something happen at a moment."""

    def seen(self, link: Link, frame: bytes) -> None:
        """A frame enters a link."""

    def new_mac(self) -> bytes:
        """A MAC that no other node has."""


class Node(Protocol):
    """What a link may join."""

    def port(self) -> Port:
        """A port for the link."""


class Port:
    """Where a node takes frames from a link and gives them to it."""

    def __init__(self, receive: Callable[[bytes], None]) -> None:
        self.receive = receive
        self.link: Optional[Link] = None
        # Until when the link is busy with what was sent from here.
        self.busy = 0

    def send(self, frame: bytes) -> None:
        """A frame goes out; where there is no link it is lost."""
        if self.link is not None:
            self.link.carry(self, frame)


class Link:
    """A link of two ports: Network.link has what its numbers mean. They may be changed at any time, so `loss = 1` cuts it. `lost` counts frames."""

    def __init__(
        self,
        ground: Ground,
        one: Union[Node, Port],
        other: Union[Node, Port],
        delay: float,
        loss: float,
        repeat: float,
        reorder: float,
        rate: Optional[float],
        queue: Optional[float],
    ) -> None:
        if not all(0 <= share <= 1 for share in (loss, repeat, reorder)):
            raise ValueError("loss, repeat and reorder are 0 to 1")
        if delay < 0 or (queue or 0) < 0 or (rate is not None and rate <= 0):
            raise ValueError("a delay and a queue are not negative, and a rate is positive")
        ends = [it if isinstance(it, Port) else it.port() for it in (one, other)]
        if ends[0] is ends[1] or any(end.link for end in ends):
            raise ValueError("a port has one link, and a link has two ports")
        for end in ends:
            end.link = self
        self._ground, self._ends = ground, ends
        self.delay, self.loss, self.repeat, self.reorder, self.rate, self.queue = delay, loss, repeat, reorder, rate, queue
        self.lost = 0

    def carry(self, source: Port, frame: bytes) -> None:
        """A frame goes out of one of its ports; the dice decide what becomes of it, three throws a frame."""
        self._ground.seen(self, frame)
        dice, clock = self._ground.dice, self._ground.clock
        lost, twice, late = [dice.random() < share for share in (self.loss, self.repeat, self.reorder)]
        begin = max(clock, source.busy)
        if self.queue is not None and begin - clock > self.queue * MILLISECOND:
            self.lost += 1
            return
        source.busy = begin if self.rate is None else begin + round(8 * len(frame) * SECOND / self.rate)
        if lost:
            self.lost += 1
            return
        target = self._ends[1] if source is self._ends[0] else self._ends[0]
        delay = round(self.delay * MILLISECOND)
        arrival = source.busy + delay + (dice.randrange(max(delay, MILLISECOND)) + 1 if late else 0)
        for _ in range(2 if twice else 1):
            self._ground.at(arrival, lambda: target.receive(frame))


class Switch:
    """A switch: it learns on which port a MAC is, and what is for others it sends out of all ports but the one where it came."""

    def __init__(self) -> None:
        self._ports: List[Port] = []
        self._known: Dict[bytes, Port] = {}

    def port(self) -> Port:
        """A new port."""
        port = Port(lambda frame: self._receive(port, frame))
        self._ports.append(port)
        return port

    def _receive(self, source: Port, frame: bytes) -> None:
        if len(frame) < 14:
            return
        target, sender = frame[:6], frame[6:12]
        if not sender[0] & 1:  # that of a group is no sender's
            self._known[sender] = source
        known = self._known.get(target)
        for port in self._ports if known is None else [known]:
            if port is not source:
                port.send(frame)


class Probe:
    """An end of a link without a host. `frames` has the moment of each that arrived, in milliseconds, and the frame."""

    def __init__(self, ground: Ground) -> None:
        self._ground, self._port, self._crowd = ground, Port(self._receive), Crowd()
        self.frames: List[Tuple[float, bytes]] = []
        self._read = 0

    def port(self) -> Port:
        """Its one port."""
        return self._port

    def send(self, frame: Packet) -> None:
        """Sends a frame, made by hand or by scapy. Outside of tasks it goes out when the network runs."""
        octets = bytes(frame)
        self._ground.at(self._ground.clock, lambda: self._port.send(octets))

    def recv(self, timeout: Optional[float] = None) -> Call[bytes]:
        """The next frame that arrives, or that arrived and was not read so. TimeoutError after `timeout` milliseconds."""
        return Call(self._next(timeout))

    def _next(self, timeout: Optional[float]) -> Generator[Wait, None, bytes]:
        limit = None if timeout is None else self._ground.clock + round(timeout * MILLISECOND)
        while self._read == len(self.frames):
            if limit is not None and self._ground.clock >= limit:
                raise TimeoutError(errno.ETIMEDOUT, "no frame arrived in time")
            yield Wait(self._crowd, lambda: self._read < len(self.frames), limit)
        self._read += 1
        return self.frames[self._read - 1][1]

    def _receive(self, frame: bytes) -> None:
        self.frames.append((self._ground.clock / MILLISECOND, frame))
        self._crowd.tell()


class _Side:
    """A router's interface: its address, its MAC, the MACs of its neighbours, and the datagrams that wait for one."""

    def __init__(self, own: ipaddress.IPv4Interface, mac: bytes) -> None:
        self.addr, self.network, self.mac = int(own.ip), own.network, mac
        self.port = Port(lambda frame: None)
        self.neighbours: Dict[int, bytes] = {}
        self.waiting: Dict[int, List[bytes]] = {}

    def send(self, mac: bytes, datagram: bytes) -> None:
        """A datagram goes to a neighbour."""
        self.port.send(ethernet(mac, self.mac, IPV4, datagram))


class _Route(NamedTuple):
    prefix: ipaddress.IPv4Network
    side: _Side
    gateway: Optional[int]


class Router:
    """A router of IPv4 (RFC 791, RFC 826): the longest prefix counts, the time to live falls by one, and a sender is told of what can't go on (RFC 792).
    It cuts nothing, skips options and takes nothing for itself. `forwarded` and `dropped` count datagrams."""

    def __init__(self, ground: Ground) -> None:
        self._ground = ground
        self._routes: List[_Route] = []
        self.forwarded = self.dropped = 0

    def port(self, addr: str) -> Port:
        """A new port with an address, `"10.0.1.254/24"`, and a route to its network."""
        side = _Side(ipaddress.IPv4Interface(addr), self._ground.new_mac())
        side.port.receive = lambda frame: self._receive(side, frame)
        self._routes.append(_Route(side.network, side, None))
        return side.port

    def route(self, prefix: str, gateway: str) -> None:
        """Has what is for a prefix go by a gateway. ValueError where that is on no network of a port."""
        hop = ipaddress.IPv4Address(gateway)
        for route in self._routes:
            if route.gateway is None and hop in route.prefix:
                self._routes.append(_Route(ipaddress.IPv4Network(prefix), route.side, int(hop)))
                return
        raise ValueError(f"{gateway} is on no network of a port")

    def _receive(self, side: _Side, frame: bytes) -> None:
        kind = int.from_bytes(frame[12:14], "big")
        if kind == ARP:
            self._hear(side, frame[14:42])
        elif kind == IPV4 and frame[:6] == side.mac:
            self._forward(frame[14:])

    def _hear(self, side: _Side, packet: bytes) -> None:
        """An ARP packet: its sender is learnt, a request for our address answered, and what waited for the sender goes out."""
        if len(packet) < 28 or packet[:6] != b"\0\1\x08\0\6\4":
            return
        operation, mac, sender, _, target = struct.unpack("!H6sI6sI", packet[6:])
        if target != side.addr or ipaddress.IPv4Address(sender) not in side.network:
            return
        side.neighbours[sender] = mac
        if operation == REQUEST:
            side.port.send(arp(REPLY, side.mac, side.addr, mac, sender))
        for datagram in side.waiting.pop(sender, []):
            side.send(mac, datagram)

    def _forward(self, octets: bytes) -> None:
        datagram = read_ipv4(octets)
        if datagram is None or checksum(octets[: datagram.head]) or any(datagram.target == route.side.addr for route in self._routes):
            self.dropped += 1
            return
        route = self._route_to(datagram.target)
        if datagram.ttl <= 1:
            self._tell(TIME_EXCEEDED, 0, datagram)
        elif route is None:
            self._tell(UNREACHABLE, NETWORK, datagram)
        else:
            self.forwarded += 1
            self._give(route, datagram.target, _aged(datagram))

    def _route_to(self, target: int) -> Optional[_Route]:
        address = ipaddress.IPv4Address(target)
        fitting = [route for route in self._routes if address in route.prefix]
        return max(fitting, key=lambda it: it.prefix.prefixlen) if fitting else None

    def _give(self, route: _Route, target: int, octets: bytes) -> None:
        """A datagram goes to the next hop on its way, once the MAC of that is known."""
        side, hop = route.side, target if route.gateway is None else route.gateway
        if hop in side.neighbours:
            side.send(side.neighbours[hop], octets)
        elif hop in side.waiting:
            side.waiting[hop].append(octets)
            del side.waiting[hop][:-MOST_WAITING]
        else:
            side.waiting[hop] = [octets]
            self._ask(side, hop, REQUESTS)

    def _ask(self, side: _Side, hop: int, left: int) -> None:
        """Asks for a MAC while something waits for it, so many times, a second apart; then the senders of what waits are told."""
        if hop not in side.waiting:
            return
        if left:
            side.port.send(arp(REQUEST, side.mac, side.addr, bytes(6), hop))
            self._ground.at(self._ground.clock + SECOND, lambda: self._ask(side, hop, left - 1))
            return
        for octets in side.waiting.pop(hop):
            datagram = read_ipv4(octets)
            if datagram is not None:
                self.forwarded -= 1
                self._tell(UNREACHABLE, HOST, datagram)

    def _tell(self, kind: int, code: int, datagram: Datagram) -> None:
        """A datagram is dropped, of which its sender is told by an error, unless none may be about it."""
        self.dropped += 1
        route = self._route_to(datagram.source)
        is_error = datagram.protocol == ICMP and datagram.payload[:1] and datagram.payload[0] in ERRORS
        if route is not None and not is_error and not datagram.offset:
            self._give(route, datagram.source, icmp_error(route.side.addr, kind, code, datagram.octets))


def _aged(datagram: Datagram) -> bytes:
    """The datagram with its time to live one less, and the checksum of its header made anew."""
    head = bytearray(datagram.octets[: datagram.head])
    head[8] -= 1
    head[10:12] = bytes(2)
    head[10:12] = struct.pack("!H", checksum(bytes(head)))
    return bytes(head) + datagram.payload
