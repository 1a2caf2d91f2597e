"""Who says what in a capture, for tools/replay-capture: the frames between one host and its peers, each with the conversation that it belongs to, and what
later frames tell of that one, as whether the host took a connection."""

from __future__ import annotations

import hashlib
import ipaddress
import struct
from collections import Counter
from typing import Dict, Iterable, List, NamedTuple, Optional, Tuple

from replay_packets import (
    ACK,
    FIN,
    MOST_LACKING,
    RST,
    SYN,
    Reassembly,
    Record,
    Refused,
    Segment,
    ipv4_of,
    mended,
    name_of,
    nearest,
    options_of,
    read_segment,
)
from testbed_frames import ARP, ICMP, REPLY, REQUEST, TCP, UDP, Datagram, mac_text

# Who says something: a peer, the host that the capture is of, or the one that is played in its place.
PEER, HOST, OURS = "peer", "host", "ours"
# Nanoseconds. An acknowledgement waits no longer than so many milliseconds (RFC 1122 section 4.2.3.2): so long ours may answer when the capture has ended.
MILLISECOND, LONGEST_WAIT = 1_000_000, 500
UNREACHABLE, PORT_UNREACHABLE = 3, 3
# Messages that are about a datagram (RFC 792), and those that a host sends of its own accord, which no call of this stack makes.
ERRORS, OWN_MESSAGES = (3, 4, 5, 11, 12), (8, 10, 13, 15, 17)
PROTOCOLS = {ICMP: "icmp", TCP: "tcp", UDP: "udp"}


class Talk:
    """A conversation of the host with a peer: the frames of one connection, of a pair of UDP endpoints, or of one protocol."""

    def __init__(self, kind: str, peer: int, peer_port: int = 0, port: int = 0) -> None:
        self.kind, self.peer, self.peer_port, self.port = kind, peer, peer_port, port
        self.number = 0
        # Of a connection: who sent the first SYN, both initial numbers, and whether the capture has its begin, or a word of the host but resets.
        self.opener: Optional[str] = None
        self.first: Dict[str, int] = {}
        self.is_heard = False
        # What the host answered to the SYN: whether it took it or refused it; and a datagram to its port.
        self.is_taken = self.is_refused = False
        # Options that the host's SYN had, and whether it reset the connection once it had closed its side.
        self.agreed: Tuple[int, ...] = ()
        self.is_closed = self.is_reset_at_end = False
        # Which positions of the peer's stream the capture has, and up to which the host acknowledged it. The SYN is position 0.
        self._came: List[Tuple[int, int]] = []
        self._acknowledged = 0

    @property
    def ends(self) -> Tuple[str, int, int, int]:
        """What it shares with the earlier and later connections of its pair."""
        return self.kind, self.peer, self.peer_port, self.port

    def name_of(self, host: str) -> str:
        """What a reader knows it by: the peer, and the host."""
        peer = str(ipaddress.IPv4Address(self.peer))
        if self.kind in ("tcp", "udp"):
            return f"{self.kind} {peer}:{self.peer_port} {host}:{self.port}"
        return f"{self.kind} {peer} {host}"

    @property
    def is_known(self) -> bool:
        """Whether it can be replayed: a connection that began before the capture can't, but a segment without one that was refused can."""
        return self.kind != "tcp" or self.opener is not None or not self.is_heard

    def note(self, side: str, segment: Segment) -> None:
        """Takes what a segment tells of the connection."""
        by_host = side == HOST
        if segment.flags & SYN:
            self.first.setdefault(side, segment.number)
            if by_host:
                self.agreed = tuple(kind for kind, _, _ in options_of(segment.options))
                self.is_taken = self.is_taken or bool(segment.flags & ACK)
        elif segment.flags & RST:
            self.is_refused = self.is_refused or by_host and not self.is_taken
            self.is_reset_at_end = self.is_reset_at_end or by_host and self.is_closed
        elif not by_host and segment.flags & ACK and PEER in self.first:
            self.first.setdefault(HOST, (segment.acknowledged - 1) & 0xFFFFFFFF)
        if by_host:
            self.is_heard = self.is_heard or not segment.flags & RST
            self.is_closed = self.is_closed or bool(segment.flags & FIN)
            if segment.flags & ACK:
                self._acknowledged = max(self._acknowledged, self.position(segment.acknowledged, self._acknowledged))
        elif segment.span:
            begin = self.position(segment.number, self._came[-1][1] if self._came else 0)
            self._came.append((begin, begin + segment.span))

    def position(self, number: int, near: int) -> int:
        """The position of the peer's stream that a number of it has."""
        return nearest(number - self.first.get(PEER, 0), near)

    def lacking(self) -> List[Tuple[int, int]]:
        """The positions that the host acknowledged, though the capture lacks them and has later ones: the capturing machine lost their frames."""
        found, end = [], 0
        for begin, behind in sorted(self._came):
            if end < begin <= min(self._acknowledged, end + MOST_LACKING):
                found.append((end, begin))
            end = max(end, behind)
        return found

    def begins_anew(self, side: str, segment: Segment) -> bool:
        """Whether a segment opens a further connection of the same pair."""
        if segment.flags & (SYN | ACK) != SYN or self.first.get(side) == segment.number:
            return False
        return side in self.first or self.opener is None or self.is_taken


class Said(NamedTuple):
    """A frame between the host and a peer, as it went over the wire: its place in the capture, its moment in nanoseconds, whose it is, and its conversation;
    of IPv4 the datagram, which is whole in the last of its fragments."""

    place: int
    moment: int
    side: str
    frame: bytes
    talk: Talk
    datagram: Optional[Datagram]
    whole: Optional[Datagram]
    segment: Optional[Segment]


class Talks:
    """The conversations of one host in a capture. `left_out` counts frames by why they are left out."""

    def __init__(self, records: Iterable[Record], addr: int) -> None:
        self.addr = addr
        self.all: List[Talk] = []
        self.left_out: Counter[str] = Counter()
        self.macs: Dict[int, bytes] = {}
        self._latest: Dict[Tuple[str, int, int, int], Talk] = {}
        self._fragments: Dict[bytes, Talk] = {}
        self._parts = Reassembly()
        self.said: List[Said] = []
        for record in records:
            frame = mended(record)
            said = self.hear_arp(frame, record.moment) if frame[12:14] == struct.pack("!H", ARP) else self.hear_ipv4(frame, record.moment)
            if said is not None:
                self.said.append(said)
        self._leave_unknown()

    def _leave_unknown(self) -> None:
        unknown = sum(not it.talk.is_known for it in self.said)
        if unknown:
            self.left_out["of connections whose begin the capture lacks"] = unknown
        self.said = [it for it in self.said if it.talk.is_known]

    def hear_arp(self, frame: bytes, moment: int) -> Optional[Said]:
        """A request of a peer for the host's address, or the host's reply. Requests of the host are its own: what it knew before isn't in the capture."""
        if len(frame) < 42:
            self._leave("of other kinds or hosts")
            return None
        operation, mac, sender, _, target = struct.unpack_from("!H6sI6sI", frame, 20)
        self.macs.setdefault(sender, mac)
        if operation == REQUEST and target == self.addr != sender:
            return self._said(PEER, frame, moment, self.talk("arp", sender), None, None)
        if operation == REPLY and sender == self.addr:
            return self._said(HOST, frame, moment, self.talk("arp", target), None, None)
        self._leave("of ARP that the host's own requests drew" if self.addr in (sender, target) else "of other kinds or hosts")
        return None

    def hear_ipv4(self, frame: bytes, moment: int) -> Optional[Said]:
        """A datagram from or to the host."""
        datagram = ipv4_of(frame)
        if datagram is None or self.addr not in (datagram.source, datagram.target) or datagram.source == datagram.target:
            self._leave("of other kinds or hosts")
            return None
        if frame[0] & 1:
            self._leave("to all or to a group")
            return None
        side, peer = (HOST, datagram.target) if datagram.source == self.addr else (PEER, datagram.source)
        self.macs.setdefault(self.addr, frame[6:12] if side == HOST else frame[:6])
        self.macs.setdefault(peer, frame[:6] if side == HOST else frame[6:12])
        whole = self._parts.add(datagram)
        if side == HOST and not _is_answer(whole or datagram):
            self._leave("that the host sent of its own accord and no call of this stack makes")
            return None
        return self._said(side, frame, moment, self._talk_of(side, peer, datagram), datagram, whole)

    def _leave(self, why: str) -> None:
        self.left_out[why] += 1

    def _said(self, side: str, frame: bytes, moment: int, talk: Talk, datagram: Optional[Datagram], whole: Optional[Datagram]) -> Said:
        segment = None if whole is None else read_segment(whole)
        if segment is not None:
            talk.note(side, segment)
        if side == HOST and talk.kind == "udp":
            talk.is_taken = True
        if side == HOST and whole is not None and whole.protocol == ICMP:
            self._note_refusal(whole)
        return Said(len(self.said), moment, side, frame, talk, datagram, whole, segment)

    def _note_refusal(self, datagram: Datagram) -> None:
        """A message of the host that no program has a datagram's port."""
        quoted = datagram.payload[8:]
        if datagram.payload[:2] == bytes([UNREACHABLE, PORT_UNREACHABLE]) and len(quoted) >= 28 and quoted[9] == UDP:
            peer_port, port = struct.unpack_from("!HH", quoted, 4 * (quoted[0] & 15))
            self.talk("udp", datagram.target, peer_port, port).is_refused = True

    def talk(self, kind: str, peer: int, peer_port: int = 0, port: int = 0) -> Talk:
        """The conversation of these ends, the last one where there are several."""
        name = kind, peer, peer_port, port
        return self._latest[name] if name in self._latest else self._begin(Talk(*name))

    def _begin(self, talk: Talk) -> Talk:
        self.all.append(talk)
        self._latest[talk.ends] = talk
        return talk

    def _talk_of(self, side: str, peer: int, datagram: Datagram) -> Talk:
        if datagram.offset:
            return self._fragments.get(name_of(datagram)) or self.talk("ipv4", peer)
        kind = PROTOCOLS.get(datagram.protocol, "ipv4")
        ports: Tuple[int, ...] = 0, 0
        if kind in ("tcp", "udp") and len(datagram.payload) >= 4:
            ports = struct.unpack_from("!HH", datagram.payload)
        talk = self.talk(kind, peer, *(ports if side == PEER else ports[::-1]))
        segment = read_segment(datagram)
        if segment is not None:
            talk = self._connection(talk, side, segment)
        if datagram.more:
            self._fragments[name_of(datagram)] = talk
        return talk

    def _connection(self, talk: Talk, side: str, segment: Segment) -> Talk:
        if talk.begins_anew(side, segment):
            if talk.first or talk.is_heard:
                talk = self._begin(Talk(talk.kind, talk.peer, talk.peer_port, talk.port))
            talk.opener = side
        return talk


def _is_answer(datagram: Datagram) -> bool:
    """Whether a datagram of the host answers one, or comes of a call that this stack has."""
    if datagram.protocol == ICMP:
        return bool(datagram.offset) or datagram.payload[:1] == b"" or datagram.payload[0] not in OWN_MESSAGES
    return datagram.protocol in PROTOCOLS


def host_of(records: Iterable[Record]) -> int:
    """The host that a capture is replayed for where nobody says: the first that was spoken to and speaks itself, else the first that was spoken to."""
    targets: List[int] = []
    sources = set()
    for record in records:
        datagram = ipv4_of(mended(record))
        if datagram is not None and not record.frame[0] & 1 and datagram.source != datagram.target:
            targets.append(datagram.target)
            sources.add(datagram.source)
    if not targets:
        raise Refused("the capture has no IPv4 datagram from one host to another")
    return next((it for it in targets if it in sources), targets[0])


# What is compared of a frame that carries no segment, and what it says.


def key_of(frame: bytes, whole: Optional[Datagram], is_strict: bool) -> Tuple[object, ...]:
    """What two answers have in common that are the same. The identification and the time to live count for nothing."""
    if whole is None:
        return ("arp", frame[20:42])
    message = whole.payload
    if whole.protocol == ICMP and message[:1] and message[0] in ERRORS and not is_strict:
        return (message[:2], _quoted(message[8:]))
    without_sum = message[:6] if whole.protocol == UDP else message[:2]
    return (whole.protocol, len(message), without_sum, hashlib.sha256(message[8:] if whole.protocol == UDP else message[4:]).digest())


def _quoted(octets: bytes) -> Tuple[bytes, bytes]:
    """Which datagram an error is about: its protocol and addresses, and the ports."""
    head = 4 * (octets[0] & 15) if octets else 0
    return octets[9:10] + octets[12:20], octets[head : head + 4]


def text_of(frame: bytes, datagram: Optional[Datagram], whole: Optional[Datagram]) -> str:
    """What a frame without a segment says, in the words of docs/FORMATS.md, less its addresses and ports."""
    if datagram is None:
        operation, mac = struct.unpack_from("!H6s", frame, 20)
        return "arp request" if operation == REQUEST else f"arp reply {mac_text(mac)}"
    if whole is None or whole.protocol not in (ICMP, UDP) or len(whole.payload) < 8:
        return f"ipv4 proto {datagram.protocol} off {datagram.offset} payload {len(datagram.payload)}"
    if whole.protocol == ICMP:
        return f"icmp type {whole.payload[0]} code {whole.payload[1]} data {len(whole.payload) - 8}"
    return f"udp data {len(whole.payload) - 8}"
