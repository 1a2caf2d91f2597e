"""What tools/try-check-capture makes of datagrams, as capture_trials_streams.py of connections."""

from __future__ import annotations

from typing import List, Tuple

from capture_made import FRONT, HOST, MORE, OCTETS, OURS, PEER, THEIRS, UDP, Made, Trials, packet, user_datagram

TRIALS = Trials()
holds, breaks = TRIALS.holds, TRIALS.breaks


@holds("datagrams", rf"^udp {OURS} {THEIRS}: 3 datagrams read, 1,510 octets; 1 written, 500 octets; 1 sent: holds$")
def datagrams(made: Made) -> None:
    for octets in FRONT, b"":
        made.hear(packet(PEER, HOST, UDP, user_datagram(PEER, 40_000, HOST, 7, octets)))
    made.call(f"recvfrom 1 {OURS} {THEIRS} 65507", FRONT)
    made.call(f"recvfrom 1 {OURS} {THEIRS} 65507", b"")
    made.call(f"recvfrom 1 {OURS} {THEIRS} 510", FRONT[:510])
    made.call(f"sendto 1 {OURS} {THEIRS}", OCTETS[:500])
    made.say(packet(HOST, PEER, UDP, user_datagram(HOST, 7, PEER, 40_000, OCTETS[:500])))


def fragments(octets: bytes, spoiled: int = 0) -> List[Tuple[int, bytes]]:
    """The parts of a datagram to the host's port 7: offset and flags, and octets."""
    whole = user_datagram(PEER, 40_000, HOST, 7, octets, spoiled)
    cuts = range(0, len(whole), 1480)
    return [(at // 8 | (MORE if at + 1480 < len(whole) else 0), whole[at : at + 1480]) for at in cuts]


@holds("fragments that come within a minute", "1 datagram read, 7,000 octets")
def within_minute(made: Made) -> None:
    parts = fragments(OCTETS[:7000])
    for part, octets in parts[:-1]:
        made.hear(packet(PEER, HOST, UDP, octets, 11, part))
    made.now += 59_900_000
    made.hear(packet(PEER, HOST, UDP, parts[-1][1], 11, parts[-1][0]))
    made.call(f"recvfrom 1 {OURS} {THEIRS} 65507", OCTETS[:7000])


@holds("fragments in any order, and twice", "2 datagrams read, 14,000 octets; 1 written, 3,000 octets; 1 sent")
def in_fragments(made: Made) -> None:
    one, other = fragments(OCTETS[:7000]), fragments(OCTETS[7000:14_000])
    for (part, octets), (other_part, other_octets) in zip(reversed(one), other):
        for _ in range(2):
            made.hear(packet(PEER, HOST, UDP, octets, 11, part))
            made.hear(packet(PEER, HOST, UDP, other_octets, 12, other_part))
    for octets in OCTETS[:7000], OCTETS[7000:14_000]:
        made.call(f"recvfrom 1 {OURS} {THEIRS} 65507", octets)
    made.call(f"sendto 1 {OURS} {THEIRS}", OCTETS[:3000])
    whole = user_datagram(HOST, 7, PEER, 40_000, OCTETS[:3000])
    for at in range(0, len(whole), 1480):
        made.say(packet(HOST, PEER, UDP, whole[at : at + 1480], 5, at // 8 | (MORE if at + 1480 < len(whole) else 0)))


# ---- What doesn't


NO_DATAGRAM = "datagram 1 that was read, of {} octets, came in no frame and no fragments"


@breaks("a datagram: another octet", f"{NO_DATAGRAM.format('1,000')}; at octet 8 it has 0x{FRONT[7] ^ 1:02x}, and frames carried 0x{FRONT[7]:02x} there$")
def another_datagram(made: Made) -> None:
    made.hear(packet(PEER, HOST, UDP, user_datagram(PEER, 40_000, HOST, 7, FRONT)))
    made.call(f"recvfrom 1 {OURS} {THEIRS} 65507", FRONT[:7] + bytes([FRONT[7] ^ 1]) + FRONT[8:])


@breaks("a datagram: with a wrong sum", f"{NO_DATAGRAM.format('1,000')}$")
def spoiled_datagram(made: Made) -> None:
    made.hear(packet(PEER, HOST, UDP, user_datagram(PEER, 40_000, HOST, 7, FRONT, spoiled=1)))
    made.call(f"recvfrom 1 {OURS} {THEIRS} 65507", FRONT)


@breaks("a datagram: from another port", f"{NO_DATAGRAM.format('1,000')}$")
def datagram_of_another(made: Made) -> None:
    made.hear(packet(PEER, HOST, UDP, user_datagram(PEER, 40_001, HOST, 7, FRONT)))
    made.call(f"recvfrom 1 {OURS} {THEIRS} 65507", FRONT)


@breaks("a datagram: a fragment is missing", f"{NO_DATAGRAM.format('7,000')}$")
def fragment_missing(made: Made) -> None:
    parts = fragments(OCTETS[:7000])
    for part, octets in parts[:2] + parts[3:]:
        made.hear(packet(PEER, HOST, UDP, octets, 11, part))
    made.call(f"recvfrom 1 {OURS} {THEIRS} 65507", OCTETS[:7000])


@breaks("a datagram: the fragment with its end is missing", f"{NO_DATAGRAM.format('2,952')}$")
def end_missing(made: Made) -> None:
    for part, octets in fragments(OCTETS[:2952]):
        made.hear(packet(PEER, HOST, UDP, octets, 11, part | MORE))
    made.call(f"recvfrom 1 {OURS} {THEIRS} 65507", OCTETS[:2952])


@breaks("a datagram: cut, and there was room", f"{NO_DATAGRAM.format('500')}$")
def cut_with_room(made: Made) -> None:
    made.hear(packet(PEER, HOST, UDP, user_datagram(PEER, 40_000, HOST, 7, FRONT)))
    made.call(f"recvfrom 1 {OURS} {THEIRS} 65507", FRONT[:500])


@breaks("a datagram: in fragments, cut, and there was room", f"{NO_DATAGRAM.format('500')}$")
def fragments_cut(made: Made) -> None:
    for part, octets in fragments(OCTETS[:7000]):
        made.hear(packet(PEER, HOST, UDP, octets, 11, part))
    made.call(f"recvfrom 1 {OURS} {THEIRS} 65507", OCTETS[:500])


@breaks("a datagram: in fragments, with what stands behind its end", f"{NO_DATAGRAM.format('2,000')}$")
def behind_datagram(made: Made) -> None:
    whole = user_datagram(PEER, 40_000, HOST, 7, FRONT) + OCTETS[1000:2000]
    made.hear(packet(PEER, HOST, UDP, whole[:1480], 11, MORE))
    made.hear(packet(PEER, HOST, UDP, whole[1480:], 11, 185))
    made.call(f"recvfrom 1 {OURS} {THEIRS} 65507", OCTETS[:2000])


@breaks("a datagram: in fragments without a checksum, another octet", "datagram 2 .*; at octet 1 it has 0x01, and frames carried 0x00 there$")
def unsummed(made: Made) -> None:
    for place, (part, octets) in enumerate(fragments(bytes(7000))):
        whole = octets[:6] + bytes(2) + octets[8:] if place == 0 else octets
        made.hear(packet(PEER, HOST, UDP, whole, 11, part))
    made.call(f"recvfrom 1 {OURS} {THEIRS} 65507", bytes(7000))
    made.call(f"recvfrom 1 {OURS} {THEIRS} 65507", b"\1" + bytes(6999))


@breaks("a datagram: from another port with the same identification", f"{NO_DATAGRAM.format('7,000')}")
def identification_of_another(made: Made) -> None:
    for part, octets in fragments(OCTETS[7000:14_000]):
        made.hear(packet(PEER, HOST, UDP, octets, 11, part))
    made.now += 120_000_000
    whole = user_datagram(PEER, 40_001, HOST, 7, OCTETS[:7000])
    for at in range(0, len(whole), 1480):
        made.hear(packet(PEER, HOST, UDP, whole[at : at + 1480], 11, at // 8 | (MORE if at + 1480 < len(whole) else 0)))
    made.call(f"recvfrom 1 {OURS} {THEIRS} 65507", OCTETS[:7000])


@breaks("a datagram: of fragments of two peers", f"{NO_DATAGRAM.format('7,000')}$")
def fragments_of_peers(made: Made) -> None:
    for place, (part, octets) in enumerate(fragments(OCTETS[:7000])):
        made.hear(packet(PEER + (place == 2), HOST, UDP, octets, 11, part))
    made.call(f"recvfrom 1 {OURS} {THEIRS} 65507", OCTETS[:7000])


@breaks("a datagram: an octet of a fragment is another", f"{NO_DATAGRAM.format('7,000')}; at octet 3,001 it has 0x01, and frames carried 0x00 there$")
def another_fragment(made: Made) -> None:
    for part, octets in fragments(bytes(7000)):
        made.hear(packet(PEER, HOST, UDP, octets, 11, part))
    made.call(f"recvfrom 1 {OURS} {THEIRS} 65507", bytes(3000) + b"\1" + bytes(3999))


@breaks("a datagram: of fragments of two", f"{NO_DATAGRAM.format('7,000')}$")
def fragments_of_two(made: Made) -> None:
    for place, (part, octets) in enumerate(fragments(OCTETS[:7000])):
        made.hear(packet(PEER, HOST, UDP, octets, 11 + (place == 2), part))
    made.call(f"recvfrom 1 {OURS} {THEIRS} 65507", OCTETS[:7000])


@breaks("a datagram: of a fragment that is older than a minute", f"{NO_DATAGRAM.format('7,000')}")
def fragment_too_old(made: Made) -> None:
    parts = fragments(OCTETS[:7000])
    for part, octets in parts[:-1]:
        made.hear(packet(PEER, HOST, UDP, octets, 11, part))
    made.now += 60_200_000
    made.hear(packet(PEER, HOST, UDP, parts[-1][1], 11, parts[-1][0]))
    made.call(f"recvfrom 1 {OURS} {THEIRS} 65507", OCTETS[:7000])


@breaks("a datagram: of fragments with a wrong sum", f"{NO_DATAGRAM.format('7,000')}")
def fragments_spoiled(made: Made) -> None:
    for part, octets in fragments(OCTETS[:7000], spoiled=1):
        made.hear(packet(PEER, HOST, UDP, octets, 11, part))
    made.call(f"recvfrom 1 {OURS} {THEIRS} 65507", OCTETS[:7000])


@breaks("a datagram: goes twice", "frame 1 has a datagram of 1,000 octets that nobody wrote, or that went out before$")
def datagram_twice(made: Made) -> None:
    made.call(f"sendto 1 {OURS} {THEIRS}", FRONT)
    for _ in range(2):
        made.say(packet(HOST, PEER, UDP, user_datagram(HOST, 7, PEER, 40_000, FRONT)))
