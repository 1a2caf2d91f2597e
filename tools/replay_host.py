"""The play of tools/replay-capture: a host of this stack in the place of the one that a capture is of. What the peers sent comes at the moments of the
capture, and the program's calls are those that the captured host's frames tell of."""

from __future__ import annotations

import dataclasses
import errno
import ipaddress
import struct
from collections import Counter
from typing import Dict, List, Optional, Tuple

from host import Drop, Host, Kind, Recovery
from replay_packets import (
    ACK,
    ALL,
    FIN,
    MOST_FRAME,
    MOST_LACKING,
    RST,
    SEGMENT_SIZE,
    SELECTIVE,
    SYN,
    WINDOW_SCALE,
    Reassembly,
    Refused,
    Segment,
    ipv4_of,
    is_after,
    pieces,
    read_segment,
    with_segment,
    without_options,
)
from replay_talks import HOST, LONGEST_WAIT, MILLISECOND, OURS, PEER, PROTOCOLS, Said, Talk, Talks
from testbed_frames import ARP, REPLY, REQUEST, UDP, arp

BACKLOG = 8
OWN_MAC = bytes([2, 0, 0, 0, 0, 1])


def _real_host(mac: bytes, addr: int) -> Host:
    """A host as docs/EMBEDDING.md recommends it on a real network."""
    return Host(
        mac, addr, {"0.0.0.0/0": None}, recovery=Recovery.SELECTIVE, first_segments=10, least_timeout=200, first_threshold=1 << 30
    )


@dataclasses.dataclass
class Use:
    """A connection in use: the socket that has it; what the captured host had sent and its program is still to give; and the numbers of both sides."""

    id: int = 0
    unsent: bytearray = dataclasses.field(default_factory=bytearray)
    given: Optional[int] = None  # the captured host's next number
    is_closing: bool = False  # its FIN was seen
    is_closed: bool = False  # our side is closed
    has_ended: bool = False  # the peer's stream was read to its end
    is_over: bool = False  # the socket is gone, or failed
    sent: Optional[int] = None  # our next number
    came: int = 0  # the peer's next number
    acknowledged: Optional[int] = None  # what the peer acknowledged, where ours had not sent it yet,
    frame: bytes = b""  # the frame that did,
    told: int = 0  # and how much of that was delivered
    lacking: Optional[List[Tuple[int, int]]] = None  # positions of the peer's stream that the capture lacks and ours has not either


class Play:
    """A replay. `answers` has what ours sent, `drops` why ours dropped a frame of the peer, by its place in the capture; `notes` what went not as meant."""

    def __init__(self, talks: Talks) -> None:
        self.talks, self.macs, self._addr = talks, talks.macs, str(ipaddress.IPv4Address(talks.addr))
        self.mac = talks.macs.get(talks.addr, OWN_MAC)
        try:
            self.host = _real_host(self.mac, talks.addr)
        except OSError as error:
            raise Refused(f"no host can be at {self._addr} with the MAC {self.mac.hex(':')}: {error.strerror}") from None
        self.answers: List[Said] = []
        self.drops: Dict[int, Drop] = {}
        self.notes: Counter[str] = Counter()
        self.held_back = self.made_up = 0
        self._now = self._place = self._moment = 0
        self._begin = talks.said[0].moment if talks.said else 0
        self._uses: Dict[Talk, Use] = {}
        self._pairs: Dict[Tuple[int, int, int], Talk] = {}
        self._listeners: Dict[int, int] = {}
        self._datagrams: Dict[int, int] = {}
        self._parts = Reassembly()
        self._current: Dict[Tuple[str, int, int, int], Talk] = {}

    def run(self) -> None:
        """Plays the capture to its end, and as long after it as an acknowledgement may wait."""
        with self.host:
            for said in self.talks.said:
                self._wait_until((said.moment - self._begin) // MILLISECOND)
                self._place, self._moment = said.place, said.moment
                self._current[said.talk.ends] = said.talk
                if said.side == PEER:
                    self._hear(said)
                else:
                    self._follow(said)
            self._place += 1
            self._wait_until(self._now + LONGEST_WAIT)

    # Time.

    def _wait_until(self, moment: int) -> None:
        """Lets time pass, with each of the host's deadlines."""
        last = -1
        deadline = self.host.next_deadline()
        while deadline is not None and last < deadline <= moment:
            last = self._now = max(self._now, deadline)
            self._moment = self._begin + self._now * MILLISECOND
            self.host.tick(self._now)
            self._drain()
            deadline = self.host.next_deadline()
        self._now = max(self._now, moment)
        self.host.tick(self._now)

    # What the peers sent.

    def _hear(self, said: Said) -> None:
        talk, segment = said.talk, said.segment
        if segment is not None and segment.flags & (SYN | ACK) == SYN:
            self._prepare_port(talk)
        if talk.kind == "udp" and said.datagram is not None and not said.datagram.offset:
            self._prepare_datagrams(talk)
        for frame in self._lacking_before(said) + pieces(said.frame):
            if len(frame) > MOST_FRAME:
                self.notes[f"a datagram of {talk.name_of(self._addr)} is longer than a frame, and was not played"] += 1
                return
            drop = self.host.deliver(self._now, talk.first.get(HOST, 0), self._fitted(talk, frame))
            if drop is not None:
                self.drops[said.place] = drop
            self._serve(talk)
            self._drain()

    def _lacking_before(self, said: Said) -> List[bytes]:
        """Frames of zeros in the place of those before this one that the captured host had got, and the capture lacks."""
        segment, talk = said.segment, said.talk
        if segment is None or PEER not in talk.first or segment.flags & RST:
            return []
        use = self._use(talk)
        use.lacking = talk.lacking() if use.lacking is None else use.lacking
        frames = []
        while use.lacking and use.lacking[0][1] <= talk.position(segment.number, use.lacking[0][1]):
            begin, end = use.lacking.pop(0)
            self.made_up += end - begin
            for at in range(begin, end, SEGMENT_SIZE):
                number, size = (talk.first[PEER] + at) % ALL, min(SEGMENT_SIZE, end - at)
                frames.append(with_segment(said.frame, number, segment.acknowledged, ACK, b"", bytes(size)))
        return frames

    def _prepare_port(self, talk: Talk) -> None:
        """Before a SYN of a peer: there is a listener where the captured host took the connection, and none where it refused it."""
        self._pairs[talk.peer, talk.peer_port, talk.port] = talk
        if talk.is_refused and talk.port in self._listeners:
            self.host.close(self._listeners.pop(talk.port))
        elif talk.is_taken and talk.port not in self._listeners:
            listener = self._socket(Kind.TCP, talk.port)
            if listener is not None:
                self.host.listen(listener, BACKLOG)
                self._listeners[talk.port] = listener

    def _prepare_datagrams(self, talk: Talk) -> None:
        """There is a socket at a UDP port, unless the captured host told that there is none."""
        is_wanted = talk.is_taken or not talk.is_refused
        if is_wanted and talk.port not in self._datagrams:
            id = self._socket(Kind.UDP, talk.port)
            if id is not None:
                self._datagrams[talk.port] = id
        elif not is_wanted and talk.port in self._datagrams:
            self.host.close(self._datagrams.pop(talk.port))

    def _socket(self, kind: Kind, port: int) -> Optional[int]:
        """A socket that is bound to a port; None where there can't be one."""
        id = None
        try:
            id = self.host.socket(kind)
            self.host.bind(id, ("0.0.0.0", port))
            return id
        except OSError as error:
            where = "" if error.errno == errno.EMFILE else f" at port {port}"
            self.notes[f"no {kind.name} socket can be had{where}: {error.strerror}"] += 1
            if id is not None:
                self.host.close(id)
            return None

    def _fitted(self, talk: Talk, frame: bytes) -> bytes:
        """The frame as the peer would have sent it to ours: a SYN without the options that the captured host didn't have, and no acknowledgement of what ours
        has not sent yet, which the peer could not have."""
        datagram = ipv4_of(frame)
        segment = None if datagram is None else read_segment(datagram)
        if segment is None:
            return frame
        use = self._use(talk)
        end = (segment.number + segment.span) % ALL
        use.came = end if segment.flags & SYN or is_after(end, use.came) else use.came
        if segment.flags & (SYN | ACK) == SYN:
            lacking = tuple(kind for kind in (WINDOW_SCALE, SELECTIVE) if kind not in talk.agreed)
            return without_options(frame, lacking) if talk.is_taken and segment.options else frame
        if segment.flags & ACK and not segment.flags & (RST | SYN) and use.sent is not None and is_after(segment.acknowledged, use.sent):
            use.acknowledged, use.frame, use.told = segment.acknowledged, frame, use.sent
            self.held_back += 1
            return with_segment(frame, segment.number, use.sent, segment.flags, segment.options, segment.data)
        return frame

    def _acknowledge(self, talk: Talk, use: Use) -> None:
        """The peer acknowledges what ours has sent more by now, as far as it had in the capture."""
        if use.acknowledged is None or use.sent is None or not is_after(use.sent, use.told):
            return
        is_all = not is_after(use.acknowledged, use.sent)
        use.told = use.acknowledged if is_all else use.sent
        use.acknowledged = None if is_all else use.acknowledged
        self.host.deliver(self._now, 0, with_segment(use.frame, use.came, use.told, ACK, b"", b""))
        self._serve(talk)

    # The calls of the program.

    def _use(self, talk: Talk) -> Use:
        return self._uses.setdefault(talk, Use())

    def _follow(self, said: Said) -> None:
        """The captured host sent a frame: the program makes the call that led to it."""
        if said.segment is not None:
            self._follow_segment(said.talk, said.segment)
        elif said.whole is not None and said.whole.protocol == UDP and len(said.whole.payload) >= 8:
            self._send_datagram(said.talk, said.whole.payload[8:])
        self._drain()

    def _send_datagram(self, talk: Talk, octets: bytes) -> None:
        self._prepare_datagrams(talk)
        if talk.port in self._datagrams:
            try:
                self.host.sendto(self._datagrams[talk.port], (talk.peer, talk.peer_port), octets)
            except OSError as error:
                self.notes[f"a datagram of {talk.name_of(self._addr)} can't be sent: {error.strerror}"] += 1

    def _follow_segment(self, talk: Talk, segment: Segment) -> None:
        use = self._use(talk)
        if segment.flags & SYN:
            if talk.opener == HOST and use.given is None and not segment.flags & ACK:
                self._connect(talk, use, segment)
            use.given = (segment.number + 1) % ALL
        elif segment.flags & RST:
            if use.id and not use.is_closing and not use.is_over:
                self.host.abort(use.id)
                use.is_over = True
        else:
            self._take_octets(use, segment)
            self._push(talk, use)

    def _connect(self, talk: Talk, use: Use, segment: Segment) -> None:
        id = self._socket(Kind.TCP, talk.port)
        if id is None:
            return
        try:
            self.host.connect(self._now, segment.number, id, (talk.peer, talk.peer_port))
            self.host.set_nodelay(id)
            use.id = id
        except OSError as error:
            self.notes[f"{talk.name_of(self._addr)} can't be opened: {error.strerror}"] += 1
            self.host.close(id)

    def _take_octets(self, use: Use, segment: Segment) -> None:
        """Octets that the captured host had not sent before, and its FIN. Octets that the capture lacks are 0."""
        if use.given is None:
            use.given = segment.number
        end = (segment.number + len(segment.data)) % ALL
        new = (end - use.given) % ALL
        if 0 < new <= MOST_LACKING and not use.is_closing:
            use.unsent += segment.data[-new:].rjust(new, b"\0")
            use.given = end
        use.is_closing = use.is_closing or bool(segment.flags & FIN)

    def _push(self, talk: Talk, use: Use) -> None:
        """Gives what the captured host had sent, and closes where it had. A connection that it reset after its FIN had been closed, and not shut down."""
        if not use.id or use.is_over:
            return
        try:
            while use.unsent and (room := self.host.send_room(use.id)):
                del use.unsent[: self.host.send(use.id, use.unsent[:room])]
            if use.is_closing and not use.unsent and not use.is_closed:
                self.host.shutdown_write(use.id)
                use.is_closed = True
            if use.is_closed and (use.has_ended or talk.is_reset_at_end):
                self.host.close(use.id)
                use.is_over = True
        except BlockingIOError:
            pass
        except OSError:
            self._fail(use)

    def _fail(self, use: Use) -> None:
        self.host.close(use.id)
        use.is_over = True

    def _serve(self, talk: Talk) -> None:
        """Takes connections, and reads what came."""
        if talk.kind == "udp" and talk.port in self._datagrams:
            while self.host.try_recvfrom(self._datagrams[talk.port]):
                pass
        listener = self._listeners.get(talk.port) if talk.kind == "tcp" else None
        while listener is not None and (accepted := self.host.try_accept(listener)):
            self._accept(talk, *accepted)
        use = self._uses.get(talk)
        if use is not None and use.id and not use.is_over:
            self._read(use)
            self._push(talk, use)

    def _accept(self, talk: Talk, id: int, peer: Tuple[str, int]) -> None:
        accepted = self._pairs.get((int(ipaddress.IPv4Address(peer[0])), peer[1], talk.port))
        if accepted is None:
            self.host.close(id)
            return
        self.host.set_nodelay(id)
        use = self._use(accepted)
        use.id = id
        if accepted is not talk:
            self._read(use)
            self._push(accepted, use)

    def _read(self, use: Use) -> None:
        try:
            while octets := self.host.try_recv(use.id, 1 << 16):
                pass
            use.has_ended = octets == b""
        except OSError:
            self._fail(use)

    # What ours sends.

    def _drain(self) -> None:
        """Sends what is due: the peers' MACs are told, and all else is kept. An acknowledgement that waited for octets of ours follows them."""
        while frame := self.host.next_frame(self._now):
            talk = self._take_frame(frame)
            use = None if talk is None else self._uses.get(talk)
            if talk is not None and use is not None:
                self._acknowledge(talk, use)

    def _take_frame(self, frame: bytes) -> Optional[Talk]:
        if frame[12:14] == ARP.to_bytes(2, "big") and frame[20:22] == REQUEST.to_bytes(2, "big"):
            wanted = int.from_bytes(frame[38:42], "big")
            if wanted in self.macs:
                self.host.deliver(self._now, 0, arp(REPLY, self.macs[wanted], wanted, self.mac, self.talks.addr))
            return None
        said = self._answer(frame)
        self.answers.append(said)
        if said.segment is not None:
            use, end = self._use(said.talk), (said.segment.number + said.segment.span) % ALL
            if not said.segment.flags & RST and (use.sent is None or is_after(end, use.sent)):
                use.sent = end
        return said.talk

    def _answer(self, frame: bytes) -> Said:
        """What a frame of ours says, and to whom."""
        datagram = ipv4_of(frame)
        if datagram is None:
            talk = self._talk("arp", int.from_bytes(frame[38:42], "big"))
            return Said(self._place, self._moment, OURS, frame, talk, None, None, None)
        whole = self._parts.add(datagram)
        kind = PROTOCOLS[datagram.protocol]
        ports: Tuple[int, ...] = 0, 0
        if kind != "icmp" and whole is not None:
            ports = struct.unpack_from("!HH", whole.payload)
        segment = None if whole is None else read_segment(whole)
        return Said(self._place, self._moment, OURS, frame, self._talk(kind, datagram.target, *ports[::-1]), datagram, whole, segment)

    def _talk(self, kind: str, peer: int, peer_port: int = 0, port: int = 0) -> Talk:
        """The conversation of these ends at this place of the capture."""
        return self._current.get((kind, peer, peer_port, port)) or self.talks.talk(kind, peer, peer_port, port)
