"""What tools/try-check-capture makes of connections: captures and logs for which the law of one host holds, and others for which it doesn't, each with what
must be said of it. All numbers are written down here."""

from __future__ import annotations

from capture_made import ACK, FIN, FRONT, HOST, MORE, OCTETS, OTHER_MAC, OURS, PEER, RST, SYN, THEIRS, Made, Talk, Trials

TRIALS = Trials()
holds, breaks = TRIALS.holds, TRIALS.breaks


# ---- What holds


@holds("octets and ends both ways", f"^tcp {OURS} {THEIRS}: 3,000 octets read and the end of 3,000 .*; 1,400 sent with the end of 1,400 .* 6 out: holds$")
def conversation(made: Made) -> None:
    talk = Talk(made).accept()
    talk.came(1, OCTETS[:1000])
    talk.went(1, OCTETS[:1400])
    talk.came(1001, OCTETS[1000:2000])
    talk.came(2001, OCTETS[2000:3000], has_fin=True)
    talk.went(1401, b"", has_fin=True)


@holds("a connection of the host's", "1,400 octets read of 1,400 carried; 1,000 sent of 1,000 written")
def connects(made: Made) -> None:
    talk = Talk(made).begin_connect()
    talk.hear(0, flags=SYN | ACK)
    talk.say(1)
    talk.went(1, OCTETS[:1000])
    talk.came(1, OCTETS[:1400])


@holds("a SYN of before, and an RST, while the host opens", "1,400 octets read of 1,400 carried")
def opens_among_old(made: Made) -> None:
    talk = Talk(made).begin_connect()
    talk.first = 77_000
    talk.hear(0, flags=SYN | ACK, acknowledges=500)
    talk.hear(0, flags=RST | ACK, acknowledges=500)
    talk.hear(0, flags=RST)
    talk.first = 1000
    talk.hear(0, flags=SYN | ACK)
    talk.say(1)
    talk.came(1, OCTETS[:1400])


@holds("both open at the same time", "1,000 octets read of 1,000 carried; 1,000 sent of 1,000 written")
def both_open(made: Made) -> None:
    talk = Talk(made).begin_connect()
    talk.hear(0, flags=SYN)
    talk.say(0, flags=SYN | ACK)
    talk.hear(0, flags=SYN | ACK)
    talk.say(1)
    talk.hear(1)
    talk.came(1, OCTETS[:1000])
    talk.went(1, OCTETS[:1000])


@holds("both close at the same time", "1,000 octets read and the end of 1,000 carried with the end; 1,000 sent with the end of 1,000 written")
def both_close(made: Made) -> None:
    talk = Talk(made).accept()
    talk.came(1, OCTETS[:1000])
    talk.send(OCTETS[:1000])
    talk.call("shutdown")
    talk.say(1, OCTETS[:1000], ACK | FIN)
    talk.hear(1001, flags=ACK | FIN, acknowledges=1)
    talk.call("end")
    talk.peers = 1002
    talk.say(1002)
    talk.hear(1002)


@holds("segments out of order, copied, and cut otherwise", "4,000 octets read of 4,000 carried")
def disorder(made: Made) -> None:
    talk = Talk(made).accept()
    for begin, end in (2001, 3001), (1, 501), (1, 501), (3500, 4001), (401, 1201), (1001, 2401), (1, 1461), (2901, 3601):
        talk.hear(begin, OCTETS[begin - 1 : end - 1])
    talk.recv(OCTETS[:1500])
    talk.recv(OCTETS[1500:4000])
    talk.peers = 4001
    talk.say(1)


@holds("the host sends again, in other segments", "3,000 sent of 3,000 written")
def sends_again(made: Made) -> None:
    talk = Talk(made).accept()
    talk.send(OCTETS[:3000])
    for begin, end in (1, 1461), (1461, 2921), (2921, 3001), (1, 1461), (1001, 2461), (1601, 3001):
        talk.say(begin, OCTETS[begin - 1 : end - 1])
    talk.hear(1)


@holds("numbers that wrap, both ways", "100,000 octets read of 100,000 carried; 100,000 sent of 100,000 written")
def wraps(made: Made) -> None:
    talk = Talk(made, first=2**32 - 5000, own=2**32 - 3).accept()
    for begin in range(0, 100_000, 1000):
        talk.came(1 + begin, OCTETS[begin : begin + 1000])
    for begin in range(0, 100_000, 1000):
        talk.went(1 + begin, OCTETS[begin : begin + 1000])


@holds("windows of more than 16 bits", "180,000 octets read of 180,000 carried; 150,000 sent of 150,000 written")
def scaled(made: Made) -> None:
    talk = Talk(made, shift=5).accept()
    talk.say(1)  # its window is 32 times 65,535, and that of the SYN isn't
    for begin in range(0, 180_000, 1000):
        talk.hear(1 + begin, OCTETS[begin : begin + 1000])
    talk.recv(OCTETS[:180_000])
    talk.hear(180_001)
    talk.send(OCTETS[:150_000])
    for begin in range(0, 150_000, 1000):
        talk.say(1 + begin, OCTETS[begin : begin + 1000])


@holds("probes of closed windows, both ways", "1,003 octets read of 1,003 carried; 1,001 sent of 1,001 written")
def probes(made: Made) -> None:
    talk = Talk(made).accept(window=1000)
    talk.hear(1, FRONT)
    talk.peers = 1001
    talk.say(1, window=0)
    talk.hear(1001, OCTETS[1000:1001])  # finds the window closed
    talk.say(1, window=0)
    talk.recv(FRONT)
    talk.say(1, window=3)
    talk.hear(1001, OCTETS[1000:1004])  # the last of these is past the window
    talk.recv(OCTETS[1000:1003])
    talk.peers = 1004
    talk.say(1)
    talk.send(OCTETS[:1001])
    talk.say(1, OCTETS[:1000])
    talk.hear(1004, window=0)
    talk.say(1001, OCTETS[1000:1001])
    talk.say(1001, OCTETS[1000:1001])


@holds("a pair of ends that is used again", "1,000 octets read and the end of 1,000", "500 octets read of 500", "2 connections")
def used_again(made: Made) -> None:
    talk = Talk(made).accept()
    talk.came(1, FRONT, has_fin=True)
    talk.went(1, b"", has_fin=True)
    again = Talk(made, id=3, first=900_000, own=77).accept()
    again.came(1, OCTETS[5000:5500])


@holds("a window that is told smaller than before", "1,000 octets read of 1,000 carried")
def smaller_window(made: Made) -> None:
    talk = Talk(made).accept()
    talk.say(1, window=100)
    talk.came(1, FRONT)


@holds("the host sends again, past a window that was taken back", "1,000 sent of 1,000 written")
def window_taken_back(made: Made) -> None:
    talk = Talk(made).accept()
    talk.send(FRONT)
    talk.say(1, FRONT)
    talk.hear(1, acknowledges=1, window=100)
    talk.say(1, FRONT)


@holds("a window that comes with octets of before and new ones", "1,400 octets read of 1,400 carried; 1,400 sent of 1,400 written")
def window_with_old(made: Made) -> None:
    talk = Talk(made).accept()
    talk.hear(1, FRONT[:500], window=1000)
    talk.hear(501, FRONT[500:], window=1000)
    talk.hear(401, OCTETS[400:1400], window=3000)
    talk.recv(OCTETS[:1400])
    talk.send(OCTETS[:1400])
    talk.say(1, OCTETS[:1400], acknowledges=1401)


@holds("what found no room, and comes again after an RST that is none", "1,400 octets read of 1,400 carried")
def no_room(made: Made) -> None:
    talk = Talk(made).accept()
    talk.hear(1, FRONT[:500])
    talk.hear(501, FRONT[500:])
    talk.say(1, acknowledges=501)
    talk.hear(1001, flags=RST)
    talk.hear(501, OCTETS[500:1400])
    talk.recv(OCTETS[:1400])


@holds("an RST that is in the window, and not at its begin", "1,000 octets read of 1,000 carried")
def rst_in_window(made: Made) -> None:
    talk = Talk(made).accept()
    talk.hear(2, flags=RST)
    talk.came(1, FRONT)


@holds("octets with an old acknowledgement", "1,000 octets read of 1,000 carried")
def old_acknowledgement(made: Made) -> None:
    talk = Talk(made).accept()
    talk.hear(1, FRONT, acknowledges=-(10**9))
    talk.recv(FRONT)


@holds("a reset", "1,000 octets read of 1,000 carried")
def reset(made: Made) -> None:
    talk = Talk(made).accept()
    talk.came(1, FRONT)
    talk.hear(1001, flags=RST)


@holds("frames of which none counts", "1,000 octets read of 1,000 carried", "4 frames in count for nothing")
def forged(made: Made) -> None:
    talk = Talk(made).accept()
    other = bytes(1000)
    talk.hear(1, other, spoiled=1)
    talk.hear(1, other, is_head_spoiled=True)
    talk.hear(1, other, mac=OTHER_MAC)
    talk.hear(1, other, target=HOST + 1)
    talk.hear(1, other, source=PEER + 2)
    talk.hear(1, other, ports=(40_001, 7))
    talk.hear(1, other, ports=(40_000, 8))
    talk.hear(70_001, other)
    talk.hear(1 - 2000, other)
    talk.hear(1, other, flags=0)
    talk.hear(1, other, acknowledges=500)
    talk.came(1, FRONT)


@holds("two octets for one position, of which the second is read", "1,000 octets read of 1,000 carried")
def two_octets(made: Made) -> None:
    talk = Talk(made).accept()
    talk.hear(101, bytes(900))
    talk.came(1, FRONT)


@holds("options of every kind", "1,000 octets read of 1,000 carried")
def options(made: Made) -> None:
    talk = Talk(made).accept()
    talk.hear(1, FRONT[:500], options=b"\1\1\x05\x0a" + bytes(8))  # selective acknowledgements
    talk.hear(501, FRONT[500:], options=b"\1\1\x08\x0a" + bytes(8) + b"\xfe\2\0\xff")  # timestamps, one that nobody knows, and the end
    talk.recv(FRONT)


@holds("a keep-alive, an acknowledgement again, and a full buffer", "1,000 octets read of 1,000 carried; 1,000 sent of 66,535 written")
def keep_alive(made: Made) -> None:
    talk = Talk(made).accept()
    talk.came(1, FRONT)
    talk.went(1, FRONT)
    talk.say(1000)
    talk.hear(1001)
    talk.hear(1001, acknowledges=1)
    talk.send(OCTETS[1000:66_535])


@holds("openings that come to nothing", "3 openings came to nothing", ", 0 connections")
def openings(made: Made) -> None:
    for port in range(3):
        talk = Talk(made, ports=(7, 50_000 + port))
        talk.hear(0, flags=SYN)
        talk.say(0, flags=SYN | ACK)


# ---- What doesn't: of the stream that comes


def unread(name: str, **how: object) -> None:
    """Octets are read that only a frame carried of which none counts."""

    @breaks(name, rf"^tcp {OURS} {THEIRS}: .*: BROKEN$", f"    at position 1001 0x{OCTETS[1000]:02x} was read, and no frame carried an octet there$")
    def _(made: Made) -> None:
        talk = Talk(made).accept()
        talk.came(1, FRONT)
        arguments = {"position": 1001, "octets": OCTETS[1000:2000], **how}
        talk.hear(**arguments)  # type: ignore[arg-type]
        talk.recv(OCTETS[1000:2000])


unread("read: of a segment with a wrong checksum", spoiled=1)
unread("read: of a datagram with a wrong checksum", is_head_spoiled=True)
unread("read: of a frame for another MAC", mac=OTHER_MAC)
unread("read: of a frame for another address", target=HOST + 1)
unread("read: of another peer", source=PEER + 2)
unread("read: from another port", ports=(40_001, 7))
unread("read: to another port", ports=(40_000, 8))
unread("read: of a segment past the window", position=66_537)
unread("read: of a segment before the window", position=1)
unread("read: of a segment without ACK", flags=0)
unread("read: of a segment that acknowledges what wasn't sent", acknowledges=500)
unread("read: of a SYN", flags=SYN | ACK)
unread("read: of an RST", flags=RST | ACK)
unread("read: of a fragment", part=MORE, octets=OCTETS[1000:2004])
unread("read: of a segment with an option without its form", options=b"\1\1\2\0")
unread("read: of a frame that is too long", octets=OCTETS[1000:2461])


@breaks("read: another octet", f"at position 501 0x{FRONT[500] ^ 1:02x} was read, and frames carried 0x{FRONT[500]:02x} there$")
def another_octet(made: Made) -> None:
    talk = Talk(made).accept()
    talk.hear(1, FRONT)
    talk.recv(FRONT[:500] + bytes([FRONT[500] ^ 1]) + FRONT[501:])


@breaks("read: neither of two octets", "at position 3 0x03 was read, and frames carried 0x01 or 0x02 there$")
def neither_octet(made: Made) -> None:
    talk = Talk(made).accept()
    talk.hear(3, b"\1")
    talk.hear(1, b"\0\0\2")
    talk.recv(b"\0\0\3")


@breaks("read: ahead of a gap", f"at position 1 0x{FRONT[500]:02x} was read, and no frame carried an octet there$")
def ahead_of_gap(made: Made) -> None:
    talk = Talk(made).accept()
    talk.hear(501, FRONT[500:])
    talk.recv(FRONT[500:])


@breaks("read: before it came", f"at position 1 0x{FRONT[0]:02x} was read, and no frame carried an octet there$")
def before_it_came(made: Made) -> None:
    talk = Talk(made).accept()
    talk.recv(FRONT)
    talk.hear(1, FRONT)


@breaks("read: twice", f"at position 1001 0x{FRONT[0]:02x} was read, and no frame carried an octet there$")
def twice(made: Made) -> None:
    talk = Talk(made).accept()
    talk.came(1, FRONT)
    talk.recv(FRONT)


@breaks("read: out of place", f"at position 1 0x{FRONT[1]:02x} was read, and frames carried 0x{FRONT[0]:02x} there$")
def out_of_place(made: Made) -> None:
    talk = Talk(made).accept()
    talk.hear(1, FRONT)
    talk.recv(FRONT[1:])


@breaks("read: what came again as another octet after it was acknowledged", "at position 1 0x00 was read, and frames carried 0xff there$")
def altered_later(made: Made) -> None:
    talk = Talk(made).accept()
    talk.hear(1, b"\xff" * 100)
    talk.peers = 101
    talk.say(1)
    talk.hear(1, bytes(200))
    talk.recv(bytes(100))


@breaks("read: of the earlier connection of its ends", f"at position 1 0x{FRONT[0]:02x} was read, and no frame carried an octet there$")
def of_earlier(made: Made) -> None:
    Talk(made).accept().came(1, FRONT)
    again = Talk(made, id=3, first=900_000, own=77).accept()
    Talk(made).hear(1001, FRONT)
    again.recv(FRONT)


@breaks("read: of before the peer acknowledged the SYN", f"at position 1 0x{FRONT[0]:02x} was read, and no frame carried an octet there$")
def before_open(made: Made) -> None:
    talk = Talk(made).begin_connect()
    talk.hear(0, flags=SYN)
    talk.say(0, flags=SYN | ACK)
    talk.hear(1, FRONT, acknowledges=0)
    talk.hear(1)
    talk.recv(FRONT)


@breaks("read: of a segment around the window", f"at position 101 0x{FRONT[100]:02x} was read, and no frame carried an octet there$")
def around_window(made: Made) -> None:
    talk = Talk(made).accept(window=1000)
    talk.came(1, FRONT[:100], window=900)
    talk.hear(51, OCTETS[50:1150])
    talk.recv(FRONT[100:200])


@breaks("read: after a reset", f"at position 1001 0x{FRONT[0]:02x} was read, and no frame carried an octet there$")
def after_reset(made: Made) -> None:
    talk = Talk(made).accept()
    talk.came(1, FRONT)
    talk.hear(1001, flags=RST)
    talk.hear(1001, FRONT)
    talk.recv(FRONT)


@breaks("the end: no FIN came", "the end was read at position 1001, where no frame carried a FIN; no frame carried one$")
def no_fin(made: Made) -> None:
    talk = Talk(made).accept()
    talk.came(1, FRONT)
    talk.call("end")


@breaks("the end: before all was read", "the end was read at position 501, where no frame carried a FIN; frames carried one at 1001$")
def early_end(made: Made) -> None:
    talk = Talk(made).accept()
    talk.hear(1, FRONT, ACK | FIN)
    talk.recv(FRONT[:500])
    talk.call("end")


@breaks("the end: by a FIN with a wrong sum", "the end was read at position 1001, where no frame carried a FIN; no frame carried one$")
def spoiled_fin(made: Made) -> None:
    talk = Talk(made).accept()
    talk.hear(1, FRONT)
    talk.hear(1001, flags=ACK | FIN, spoiled=1)
    talk.recv(FRONT)
    talk.call("end")


@breaks("the end: by a FIN past the window", "the end was read at position 1001, where no frame carried a FIN; no frame carried one$")
def fin_past_window(made: Made) -> None:
    talk = Talk(made).accept(window=1000)
    talk.hear(1, FRONT, ACK | FIN)
    talk.recv(FRONT)
    talk.call("end")


@breaks("the end: octets behind it", "octets were read behind the end, from position 1001 on$")
def behind_end(made: Made) -> None:
    talk = Talk(made).accept()
    talk.came(1, FRONT, has_fin=True)
    talk.recv(FRONT)


@breaks("acknowledged: what never came", "the host acknowledges position 1001, and no frame carried position 1001$")
def acknowledges_ahead(made: Made) -> None:
    talk = Talk(made).accept()
    talk.came(1, FRONT)
    talk.say(1, acknowledges=1002)


@breaks("acknowledged: past a gap", "the host acknowledges position 2000, and no frame carried position 1001$")
def acknowledges_past_gap(made: Made) -> None:
    talk = Talk(made).accept()
    talk.came(1, FRONT)
    talk.hear(1501, OCTETS[1500:2000])
    talk.say(1, acknowledges=2001)


@breaks("opened: by no SYN", "frame 0 acknowledges the SYN 1000 of 10.0.0.1:40000, which no frame carried$")
def opened_by_nothing(made: Made) -> None:
    Talk(made).say(0, flags=SYN | ACK)


# ---- Of the stream that goes


@breaks("sent: another octet", f"frame 3 has 0x{FRONT[300] ^ 1:02x} at position 301, and 0x{FRONT[300]:02x} was written there$")
def sends_another(made: Made) -> None:
    talk = Talk(made).accept()
    talk.send(FRONT)
    talk.say(1, FRONT[:300] + bytes([FRONT[300] ^ 1]) + FRONT[301:])


@breaks("sent: what nobody wrote", f"frame 3 has 0x{OCTETS[1000]:02x} at position 1001, and no octet was written there$")
def sends_unwritten(made: Made) -> None:
    talk = Talk(made).accept()
    talk.send(FRONT)
    talk.say(1, OCTETS[:1001])


@breaks("sent: again as another octet", f"frame 5 has 0x{FRONT[10]:02x} at position 1, and 0x{FRONT[0]:02x} was written there$")
def sends_again_otherwise(made: Made) -> None:
    talk = Talk(made).accept()
    talk.went(1, FRONT)
    talk.say(1, FRONT[10:20])


@breaks("sent: before the first octet", "frame 3 has an octet at position 0, before the first$")
def sends_before_first(made: Made) -> None:
    talk = Talk(made).accept()
    talk.send(FRONT)
    talk.say(0, FRONT)


@breaks("sent: behind the FIN", "frame 5 has an octet at position 1001, and the FIN stood at 1001$")
def sends_behind_fin(made: Made) -> None:
    talk = Talk(made).accept()
    talk.went(1, FRONT, has_fin=True)
    talk.say(1001, FRONT)


@breaks("sent: a FIN before the side was closed", "frame 3 has a FIN at position 1001, and the host's side isn't closed$")
def fin_unasked(made: Made) -> None:
    talk = Talk(made).accept()
    talk.send(FRONT)
    talk.say(1, FRONT, ACK | FIN)


@breaks("sent: a FIN before all octets", "frame 3 has a FIN at position 501, and 1000 octets were written$")
def fin_early(made: Made) -> None:
    talk = Talk(made).accept()
    talk.send(FRONT)
    talk.call("close")
    talk.say(1, FRONT[:500], ACK | FIN)


@breaks("sent: past the peer's window", "frame 4 has the octet at position 1001 for the first time, and the peer's window ends at 1001$")
def past_window(made: Made) -> None:
    talk = Talk(made).accept()
    talk.hear(1, window=1000)
    talk.send(OCTETS[:1001])
    talk.say(1, OCTETS[:1001])


@breaks("sent: one octet past a window that is open", "frame 5 has the octet at position 1001 for the first time, and the peer's window ends at 1001$")
def octet_past_window(made: Made) -> None:
    talk = Talk(made).accept()
    talk.hear(1, window=1000)
    talk.send(OCTETS[:1001])
    talk.say(1, FRONT)
    talk.say(1001, OCTETS[1000:1001])


@breaks("sent: past the window, by an older segment's", "frame 5 has the octet at position 1001 for the first time, and the peer's window ends at 1001$")
def past_older_window(made: Made) -> None:
    talk = Talk(made).accept()
    talk.hear(501, FRONT[500:], window=1000)
    talk.hear(1, FRONT[:500], window=2000)
    talk.send(OCTETS[:1400])
    talk.say(1, OCTETS[:1400], acknowledges=1001)


@breaks("sent: past the window, by an unacceptable segment's", "frame 5 has the octet at position 1001 for the first time, and the peer's window ends at 1001$")
def past_unacceptable_window(made: Made) -> None:
    talk = Talk(made).accept()
    talk.hear(1, window=1000)
    talk.hear(66_537, window=2000)
    talk.send(OCTETS[:1400])
    talk.say(1, OCTETS[:1400])


@breaks("sent: past a window that was closed again", "frame 7 has the octet at position 1001 for the first time, and the peer's window ends at 1001$")
def past_closed_window(made: Made) -> None:
    talk = Talk(made).accept()
    talk.send(OCTETS[:1002])
    talk.say(1, FRONT)
    talk.hear(1, window=65_000)
    talk.hear(1, acknowledges=1, window=65_000)
    talk.hear(1, window=0)
    talk.say(1001, OCTETS[1000:1002])


@breaks("sent: past a window that is not scaled", "frame 4 has the octet at position 1201 for the first time, and the peer's window ends at 1201$")
def past_plain_window(made: Made) -> None:
    talk = Talk(made)
    talk.shift = 5
    talk.hear(0, flags=SYN)
    talk.shift = None
    talk.say(0, flags=SYN | ACK)
    talk.hear(1)
    made.call(f"accept 2 {OURS} {THEIRS}")
    talk.hear(1, window=1200)
    talk.send(OCTETS[:1201])
    talk.say(1, OCTETS[:1201])


@breaks("sent: a FIN in another place than before", "frame 5 has a FIN at position 501, and 1000 octets were written$")
def fin_moves(made: Made) -> None:
    talk = Talk(made).accept()
    talk.went(1, FRONT, has_fin=True)
    talk.say(1, FRONT[:500], ACK | FIN)


@breaks("sent: a FIN before what went out", "frame 4 has a FIN at position 501, and 1000 octets were written$")
def fin_before_octets(made: Made) -> None:
    talk = Talk(made).accept()
    talk.send(FRONT)
    talk.call("close")
    talk.say(1, FRONT)
    talk.say(1, FRONT[:500], ACK | FIN)


@breaks("taken: more than the buffer", "65600 octets are taken where 64 are acknowledged and the buffer has 65535$")
def more_than_buffer(made: Made) -> None:
    talk = Talk(made).accept()
    talk.went(1, OCTETS[:64])
    talk.send(OCTETS[64:65_600])


@breaks("taken: after the side was closed", "octets were taken after the host had closed its side$")
def taken_after_close(made: Made) -> None:
    talk = Talk(made).accept()
    talk.call("shutdown")
    talk.send(FRONT)


@breaks("sent: a segment with a wrong sum", "frame 3 is the host's, and has a wrong sum, or not the form of a segment$")
def sends_spoiled(made: Made) -> None:
    talk = Talk(made).accept()
    talk.send(FRONT)
    talk.say(1, FRONT, spoiled=1)


@breaks("sent: in no connection", "frame 0 has a segment to 10.0.0.1:40000, with which there is no connection$")
def sends_stray(made: Made) -> None:
    Talk(made).say(1)


@breaks("sent: a SYN that nobody asked for", "frame 0 has a SYN to 10.0.0.1:40000, with which nobody connects$")
def syn_unasked(made: Made) -> None:
    Talk(made).say(0, flags=SYN)
