"""What comes of segments that aren't right, at hosts on guard and at others: frames that are forged here, and two hosts that are out of step."""

import struct
from typing import List, Tuple

from host import Host

GREETED = "10.0.0.2"
PORT = 80
MOST_FRAMES = 10_000  # after so many two hosts go on without end
OLD = 10**9  # how much older a forged segment's acknowledgement is


def ones_sum(octets: bytes) -> int:
    """The checksum of RFC 1071."""
    octets += bytes(len(octets) % 2)
    total = sum(struct.unpack(f">{len(octets) // 2}H", octets))
    while total >> 16:
        total = (total & 0xFFFF) + (total >> 16)
    return ~total & 0xFFFF


def forged(frame: bytes) -> bytes:
    """The TCP segment in this frame with other octets, and an acknowledgement that is 10^9 older. Its sums are right."""
    at = 14 + 4 * (frame[14] & 15)
    end = 14 + int.from_bytes(frame[16:18], "big")
    octets_at = at + 4 * (frame[at + 12] >> 4)
    acknowledged = (int.from_bytes(frame[at + 8:at + 12], "big") - OLD) % 2**32
    segment = frame[at:at + 8] + struct.pack(">I", acknowledged) + frame[at + 12:at + 16] + bytes(2) + frame[at + 18:octets_at] + bytes(end - octets_at)
    total = ones_sum(frame[26:34] + struct.pack(">HH", 6, len(segment)) + segment)
    return frame[:at] + segment[:16] + struct.pack(">H", total) + segment[18:]


def exchange(hosts: List[Host], now: int, number: int = 0) -> int:
    """The hosts hear all that either sends at this moment, but no more than `MOST_FRAMES`: how many that were. A number is there for what opens."""
    count, is_going = 0, True
    while is_going and count < MOST_FRAMES:
        is_going = False
        for place, host in enumerate(hosts):
            host.tick(now)
            while count < MOST_FRAMES and (frame := host.next_frame(now)):
                hosts[1 - place].deliver(now, number, frame)
                count, is_going = count + 1, True
    return count


def pair(number: int, guards: bool) -> List[Host]:
    """Two hosts with an open connection, whose numbers begin at this one. It is the first's socket 1."""
    greeter, greeted = hosts = [Host(bytes([2, 0, 10, 0, 0, last]), f"10.0.0.{last}", {"10.0.0.0/24": None}, guards=guards) for last in (1, 2)]
    listener = greeted.socket()
    greeted.bind(listener, (GREETED, PORT))
    greeted.listen(listener)
    greeter.connect(0, number, greeter.socket(), (GREETED, PORT))
    exchange(hosts, 0, number)
    return hosts


def out_of_step(guards: bool) -> Tuple[int, int, int]:
    """Of two hosts each has a connection with the other of whose numbers that one knows nothing, as after a crash, and the one sends an octet. How many
    frames they exchange at that moment, how many altogether, and after how many milliseconds nothing more is to come; hosts that go on without end are
    stopped at that moment."""
    hosts = [pair(1_000, guards)[0], pair(2_000_000_000, guards)[1]]
    hosts[0].send(1, b"x")
    first = whole = exchange(hosts, 0)
    now = 0
    while first < MOST_FRAMES and (deadlines := [moment for host in hosts if (moment := host.next_deadline()) is not None]):
        now = min(deadlines)
        whole += exchange(hosts, now)
    return first, whole, now
