"""A network of two hosts that loses every tenth frame: 200,000 octets go from one to the other, and come out equal. The clock is a number.

Run it by `python3 examples/two_hosts.py`, once `embed/build` has made the library."""

import os, random, sys

sys.path.insert(0, os.path.join(os.path.dirname(os.path.abspath(__file__)), "..", "embed"))
from host import Host, Recovery
from isn import SECRET_SIZE, isn_of

dice, frames, now = random.Random(1), 0, 0
octets = dice.getrandbits(1_600_000).to_bytes(200_000, "little")
link, peer = {"10.0.0.0/24": None}, ("10.0.0.2", 80)
secret = dice.getrandbits(8 * SECRET_SIZE).to_bytes(SECRET_SIZE, "little")  # a program on a real link takes secrets.token_bytes


def real_host(mac: str, addr: str) -> Host:  # as docs/EMBEDDING.md recommends it where frames are lost
    return Host(mac, addr, link, recovery=Recovery.SELECTIVE, first_segments=10, least_timeout=200, first_threshold=1 << 30, guards=True)


with real_host("02:00:00:00:00:01", "10.0.0.1") as a, real_host("02:00:00:00:00:02", "10.0.0.2") as b:
    listener = b.socket()
    b.bind(listener, ("0.0.0.0", 80))
    b.listen(listener, 1)
    caller = a.socket()
    a.connect(now, isn_of(secret, a.would_connect(caller, peer), 1000 * now), caller, peer)
    left, read, accepted, last = octets, b"", None, None
    while last != b"":
        for one, other in (a, b), (b, a):
            one.tick(now)
            while frame := one.next_frame(now):
                frames += 1
                if frames % 10 != 0:
                    other.deliver(now, isn_of(secret, other.would_open(frame), 1000 * now), frame)
        try:
            left = left[a.send(caller, left) :]
            if not left:
                a.shutdown_write(caller)
        except (BlockingIOError, BrokenPipeError):
            pass  # there is no room, or all is given
        try:
            accepted = accepted or b.accept(listener)[0]
            last = b.recv(accepted, 65_536)
            read += last
        except BlockingIOError:  # nothing to read: time goes on to where a timer acts
            now = min((d for d in (a.next_deadline(), b.next_deadline()) if d is not None), default=now)
    assert read == octets
    counted = a.counters(), b.counters()
    assert sum(host.frames_out for host in counted) == frames and sum(host.frames_in for host in counted) == frames - frames // 10
    print(f"{len(read)} octets came out equal; of {frames} frames {frames // 10} were lost, and {now} ms went by")
