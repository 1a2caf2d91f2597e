"""The law of one host on the captures and logs of embed/try-linux, which tools/check-capture checks; and among what it must hold: forged frames and late copies
beside those that Linux sends, and a network that loses, damages, repeats and reorders them."""

import contextlib
import heapq
import os
import random
import re
import socket
import struct
import subprocess
import sys
import threading

from linux_guards import ones_sum

TOOLS = os.path.join(os.path.dirname(os.path.dirname(os.path.abspath(__file__))), "tools")
ETH_P_ALL, PACKET_OUTGOING = 3, 4
FIN, SYN, RST, ACK = 1, 2, 4, 16
# How far ahead a forged segment is of the one beside it: what stands there has mostly not come yet. It begins where no segment of Linux's begins.
AHEAD = 14_607
FAR = 1 << 30  # outside of any window


class Broken(Exception):
    """What tools/check-capture says of a capture for which the law doesn't hold."""


def numbers_in(line):
    return [int(number.replace(",", "")) for number in re.findall(r"[\d,]*\d", line)]


def held(pairs):
    """Checks captures, each with its log, and says of how much the law holds; '' where nothing moved. A log is removed once it holds."""
    sums = [0, 0, 0, 0, 0]
    for capture, log in pairs:
        done = subprocess.run([sys.executable, "-B", os.path.join(TOOLS, "check-capture"), capture, "--log", log], capture_output=True, text=True, timeout=250)
        lines = done.stdout.splitlines()
        if done.returncode != 0:
            told = [line for at, line in enumerate(lines) if line.startswith("    ") or lines[at + 1:at + 2] and lines[at + 1].startswith("    ")]
            raise Broken(f"{capture}: {' '.join(' '.join(told or [done.stderr]).split())[:500]}")
        sums = [one + other for one, other in zip(sums, numbers_in(lines[-1]))]
        os.remove(log)
    _, connections, sent, read, datagrams = sums
    moved = [f"{read:,} octets read", f"{sent:,} sent"] if connections else []
    moved += [f"{datagrams:,} datagrams"] if datagrams else []
    return f"; the law holds of {', '.join(moved)}" if moved else ""


def refused_changes(capture, log):
    """Whether tools/check-capture refuses this pair with one thing changed, and what was tried."""
    done = subprocess.run([sys.executable, "-B", os.path.join(TOOLS, "try-check-capture"), capture, log], capture_output=True, text=True, timeout=250)
    return done.returncode == 0, done.stdout.strip() or done.stderr.strip()


# ---- Other frames


def segment_at(frame):
    """Where the segment begins in a frame, and where its octets do and end; None where it has no octets."""
    if frame[12:14] != b"\x08\x00" or frame[23] != socket.IPPROTO_TCP:
        return None
    at = 14 + 4 * (frame[14] & 15)
    begin, end = at + 4 * (frame[at + 12] >> 4), 14 + int.from_bytes(frame[16:18], "big")
    return (at, begin, end) if begin < end else None


def summed(frame, at, end):
    """The frame with both its sums made anew."""
    frame = bytearray(frame)
    frame[24:26] = frame[at + 16:at + 18] = bytes(2)
    frame[24:26] = struct.pack(">H", ones_sum(bytes(frame[14:at])))
    segment = bytes(frame[at:end])
    frame[at + 16:at + 18] = struct.pack(">H", ones_sum(bytes(frame[26:34]) + struct.pack(">HH", socket.IPPROTO_TCP, len(segment)) + segment))
    return bytes(frame)


def turned(octets):
    return bytes(octet ^ 0xFF for octet in octets)


def changed(frame, at, octets):
    return frame[:at] + octets + frame[at + len(octets):]


def forged(frame):
    """Segments with other octets than Linux sends, none of which may reach the stream of this one: ahead of it, but with wrong sums, for another MAC or
    address, between other ends, without ACK, with SYN, acknowledging what was never sent, or a fragment; and with right sums far outside of the window."""
    place = segment_at(frame)
    if place is None:
        return
    at, begin, end = place
    frame = frame[:begin] + turned(frame[begin:end])
    number, acknowledged = struct.unpack(">II", frame[at + 4:at + 12])

    def numbered(ahead):
        return changed(frame, at + 4, struct.pack(">I", (number + ahead) % 2**32))

    near, far = numbered(AHEAD), numbered(FAR)
    right = summed(near, at, end)
    for where in at + 17, 25, 5:  # the last octets of both sums and of the MAC
        yield changed(right, where, bytes([right[where] ^ 4]))
    for where in 29, 33, at + 1, at + 3:  # and of both addresses and ports
        yield summed(changed(near, where, bytes([near[where] ^ 4])), at, end)
    for flags in 0, ACK | SYN:
        yield summed(changed(near, at + 13, bytes([flags])), at, end)
    yield summed(changed(near, at + 8, struct.pack(">I", (acknowledged + FAR) % 2**32)), at, end)
    yield summed(changed(near, 20, b"\x20\x00"), at, end)
    for flags in ACK, ACK | FIN, RST, ACK | RST, ACK | SYN:
        yield summed(changed(far, at + 13, bytes([flags])), at, end)


class UnrulyWay:
    """One direction of a network that loses, damages, repeats and reorders datagrams, as a seeded generator draws it: a queue of moments and frames, as
    linux_checks.OwnHost has them. ARP packets, which have no sum, it leaves alone."""

    def __init__(self, seed, share, late):
        self.chance, self.share, self.late = random.Random(seed), share, late
        self.waiting, self.count = [], 0

    def is_drawn(self):
        return self.chance.random() < self.share

    def append(self, entry):
        moment, frame = entry
        if frame[12:14] != b"\x08\x00":
            self.put(moment, frame)
            return
        for _ in range(1 + self.is_drawn()):
            if not self.is_drawn():
                self.put(moment + self.chance.uniform(0, self.late), self.damaged(frame) if self.is_drawn() else frame)

    def damaged(self, frame):
        place = self.chance.randrange(14, len(frame))
        return changed(frame, place, bytes([frame[place] ^ 1 << self.chance.randrange(8)]))

    def put(self, moment, frame):
        self.count += 1
        heapq.heappush(self.waiting, (moment, self.count, frame))

    def __len__(self):
        return len(self.waiting)

    def __getitem__(self, place):
        return self.waiting[place]

    def popleft(self):
        moment, _, frame = heapq.heappop(self.waiting)
        return moment, frame


class LateCopies:
    """Each frame again, in another order: as soon as there are some of them, all of these in one drawn from a seed."""

    def __init__(self, seed, count):
        self.chance, self.count, self.kept = random.Random(seed), count, []

    def __call__(self, frame):
        self.kept.append(frame)
        if len(self.kept) == self.count:
            yield from self.chance.sample(self.kept, self.count)
            self.kept.clear()


@contextlib.contextmanager
def frames_beside(device, others):
    """In the block each frame that Linux sends on the device is followed by those that `others` makes of it. Yields a list, as long as there were of these."""
    sent, is_over = [], threading.Event()

    def go(wire):
        while not is_over.is_set():
            with contextlib.suppress(TimeoutError):
                frame, source = wire.recvfrom(2048)
                for other in others(frame) if source[2] == PACKET_OUTGOING else ():
                    sent.append(wire.send(other))

    with socket.socket(socket.AF_PACKET, socket.SOCK_RAW, socket.htons(ETH_P_ALL)) as wire:
        wire.bind((device, ETH_P_ALL))
        wire.settimeout(0.1)
        thread = threading.Thread(target=go, args=(wire,))
        thread.start()
        try:
            yield sent
        finally:
            is_over.set()
            thread.join()
