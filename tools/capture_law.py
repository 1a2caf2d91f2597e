"""The law of one host over its capture and the log of its calls, for tools/check-capture: the frames and the calls in their order, each with the
connection or the datagrams that it is about."""

from __future__ import annotations

from collections import defaultdict
from typing import Dict, Iterable, Iterator, List, NamedTuple, Optional, Tuple

from capture_connections import Connection, Ends, count_of, name_of
from capture_datagrams import Datagrams
from capture_frames import ACK, IPV4, RST, SYN, TCP, UDP, Packet, Segment, read_packet, read_segment
from capture_log import Call
from replay_packets import Record, Refused


class Host(NamedTuple):
    """Whose capture it is. `buffers`: how many octets it takes unacknowledged, with the window scale option and without; None where there is no log."""

    mac: bytes
    addr: int
    buffers: Optional[Tuple[int, int]]


class Totals:
    """What a run was."""

    def __init__(self) -> None:
        self.frames = self.passed_over = self.begun_before = 0


class Run:
    """The frames that a host was given and gave, and its calls."""

    def __init__(self, host: Host) -> None:
        self.host = host
        self.connections: List[Connection] = []
        self.datagrams = Datagrams(host.addr, host.buffers is not None)
        self.totals = Totals()
        # What is no connection's.
        self.faults: List[str] = []
        self._current: Dict[Ends, Connection] = {}
        self._sockets: Dict[int, Connection] = {}
        self._not_accepted: Dict[Ends, List[Connection]] = defaultdict(list)
        # The numbers of SYNs that came, and their shifts.
        self._asked: Dict[Ends, Dict[int, Optional[int]]] = defaultdict(dict)

    def go(self, records: List[Record], calls: Iterable[Call]) -> None:
        """Goes through the frames and the calls, each in its order. Without a log frames are the host's that come from its MAC."""
        at = 0
        for call in calls:
            if call.frames + (call.name == "next_frame") > len(records):
                raise Refused(f"the log tells of frames behind those of the capture, which has {len(records)}: they are not of one run")
            while at < call.frames:
                self._hear(at, records[at])
                at += 1
            if call.name == "next_frame":
                self._say(at, records[at])
                at += 1
            else:
                self._call(call)
        for place in range(at, len(records)):
            record = records[place]
            if self.host.buffers is None and record.frame[6:12] == self.host.mac:
                self._say(place, record)
            else:
                self._hear(place, record)

    # Frames that the host is given.

    def _hear(self, place: int, record: Record) -> None:
        packet = read_packet(record.frame) if record.frame[:6] == self.host.mac else None
        self.totals.frames += 1
        if packet is None or packet.target != self.host.addr:
            self.totals.passed_over += 1
        elif packet.protocol == UDP:
            self.datagrams.hear(record.moment, packet)
        elif packet.protocol == TCP:
            self._hear_segment(packet)

    def _hear_segment(self, packet: Packet) -> None:
        segment = read_segment(packet)
        if segment is None:
            self.totals.passed_over += 1
            return
        ends = Ends(segment.target_port, packet.source, segment.source_port)
        if segment.flags & (SYN | ACK | RST) == SYN:
            self._asked[ends][segment.number] = segment.shift
        connection = self._current.get(ends)
        if connection is not None:
            connection.hear(segment)
        elif not segment.flags & (SYN | RST):
            self.totals.begun_before += 1

    # Frames that it gives.

    def _say(self, place: int, record: Record) -> None:
        self.totals.frames += 1
        if record.frame[6:12] != self.host.mac:
            raise Refused(f"frame {place} is not the host's, as the log has it: they are not of one run")
        if record.frame[12:14] != IPV4:
            return
        packet = read_packet(record.frame)
        if packet is None:
            self.faults.append(f"frame {place} is the host's, and has a wrong sum, or not the form of a datagram")
        elif packet.protocol == UDP:
            self.datagrams.send(place, packet)
        elif packet.protocol == TCP:
            self._say_segment(place, packet)

    def _say_segment(self, place: int, packet: Packet) -> None:
        segment = read_segment(packet)
        if segment is None:
            self.faults.append(f"frame {place} is the host's, and has a wrong sum, or not the form of a segment")
            return
        ends = Ends(segment.source_port, packet.target, segment.target_port)
        connection = self._current.get(ends)
        if segment.flags & SYN:
            self._opened(place, ends, connection, segment).send_syn(segment)
        elif connection is not None:
            connection.send(place, segment)
        elif not segment.flags & RST:
            self._say_stray(place, ends)

    def _say_stray(self, place: int, ends: Ends) -> None:
        """A segment of no connection that the capture has: without a log it may have begun before."""
        if self.host.buffers is None:
            self.totals.begun_before += 1
        else:
            self.faults.append(f"frame {place} has a segment to {name_of(ends.peer, ends.peer_port)}, with which there is no connection")

    def _opened(self, place: int, ends: Ends, current: Optional[Connection], segment: Segment) -> Connection:
        """The connection of a SYN that the host sends."""
        if current is not None and current.number in (None, segment.number):
            return current
        if not segment.flags & ACK and self.host.buffers is not None:
            self.faults.append(f"frame {place} has a SYN to {name_of(ends.peer, ends.peer_port)}, with which nobody connects")
        connection = self._begin(ends)
        if segment.flags & ACK:
            self._not_accepted[ends].append(connection)
            number = (segment.acknowledged - 1) % (1 << 32)
            if number not in self._asked[ends]:
                self.faults.append(f"frame {place} acknowledges the SYN {number} of {name_of(ends.peer, ends.peer_port)}, which no frame carried")
            connection.hear_syn(number, self._asked[ends].get(number))
        return connection

    def _begin(self, ends: Ends) -> Connection:
        connection = Connection(ends, self.host.buffers)
        self._current[ends] = connection
        self.connections.append(connection)
        return connection

    # Calls.

    def _call(self, call: Call) -> None:
        if call.ours is not None and call.peer is not None:
            ends = Ends(call.ours[1], *call.peer)
            if call.name == "connect":
                self._sockets[call.id] = self._begin(ends)
            elif call.name == "accept":
                self._accept(call, ends)
            elif call.name == "sendto":
                self.datagrams.write(ends, call.octets)
            else:
                self.datagrams.read(ends, call.room, call.octets)
            return
        connection = self._sockets.get(call.id)
        if connection is not None:
            self._call_stream(call, connection)
        elif call.name not in ("close", "abort"):
            raise Refused(f"line {call.line} of the log is about the socket {call.id}, which has no connection")

    def _accept(self, call: Call, ends: Ends) -> None:
        """Of several uses of a pair the one is accepted that was open first."""
        waiting = self._not_accepted[ends]
        connection = next((it for it in waiting if it.is_open), None)
        if connection is None:
            connection = self._begin(ends)
            connection.faults.note("opened", "it was accepted, and no frames opened it")
        else:
            waiting.remove(connection)
        self._sockets[call.id] = connection

    def _call_stream(self, call: Call, connection: Connection) -> None:
        if call.name == "send":
            connection.write(call.octets)
        elif call.name == "recv":
            connection.take(call.octets)
        elif call.name == "end":
            connection.end()
        else:
            connection.close_side()

    # What became of it.

    def lines(self) -> Iterator[Tuple[str, List[str]]]:
        """A line for each connection, and for all datagrams between two ends, with what doesn't hold of it. Openings that came to nothing have none."""
        for connection in self.connections:
            faults = list(connection.faults.found.values())
            if connection.is_open or faults:
                ends = connection.ends
                yield f"tcp {name_of(self.host.addr, ends.port)} {name_of(ends.peer, ends.peer_port)}: {connection.counts()}", faults
        for ends in sorted({*self.datagrams.tallies, *self.datagrams.faults}):
            yield self._datagram_line(ends), [self.datagrams.faults[ends]] if ends in self.datagrams.faults else []
        for fault in self.faults:
            yield "the host", [fault]

    def summary(self) -> str:
        """What there was in all."""
        connections = [it for it in self.connections if it.is_open]
        read, sent = sum(it.octets_read for it in connections), sum(it.octets_sent for it in connections)
        datagrams = sum(it.read for it in self.datagrams.tallies.values())
        counts = [count_of(self.totals.frames, "frame"), count_of(len(connections), "connection"), f"{count_of(sent, 'octet')} sent"]
        if self.host.buffers is not None:
            counts += [f"{read:,} read", f"{count_of(datagrams, 'datagram')} read"]
        return ", ".join(counts)

    def _datagram_line(self, ends: Ends) -> str:
        tally = self.datagrams.tallies[ends]
        read = f"{count_of(tally.read, 'datagram')} read, {count_of(tally.octets_read, 'octet')}"
        written = f"{tally.written:,} written, {count_of(tally.octets_written, 'octet')}"
        moved = f"{tally.sent:,} sent" if self.host.buffers is None else f"{read}; {written}; {tally.sent:,} sent"
        return f"udp {name_of(self.host.addr, ends.port)} {name_of(ends.peer, ends.peer_port)}: {moved}"
