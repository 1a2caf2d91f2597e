"""The table of embed/try-linux --netem: how long 20 MB take over a bad network. It runs in the namespace that try-linux made.

linux_netem.py TAP DEVICE WORD RUNS: the program, its device, a word that the names of the rows must have, or '', and how often each transfer is made.

The receiver is Linux, in a namespace of its own. The sender is the program, whose frames come to a packet socket on Linux's side of its device;
or Linux, in one more namespace. The network is a pump between the two. It draws by a seeded generator what becomes of each frame: of a run of a
row, the n-th frame of a direction meets the same whoever the sender is.
"""

import collections
import contextlib
import heapq
import json
import os
import random
import select
import signal
import socket
import struct
import subprocess
import sys
import time

import linux_pair
from linux_pair import FAR, NEAR

MEGABYTE = 1 << 20
SIZE = 20 * MEGABYTE
SOURCE_PORT = 19  # of the program, and of Linux where that sends
MOST = 300  # how many seconds a transfer may take
FRAMES = 30000  # room for so many in a device, which are more than all of a transfer: none is lost but by the pump
ETH_P_ALL = 3
SOL_PACKET, PACKET_IGNORE_OUTGOING = 263, 23
SO_RCVBUFFORCE = 33

# What becomes of a frame: it is lost, or damaged, with such a chance; it is late by so many seconds, more or less by at most `jitter`; or with the
# chance `at_once` it isn't late, and overtakes those that are.
Network = collections.namedtuple("Network", "name lose damage delay jitter at_once", defaults=(0, 0, 0, 0, 0))

NETWORKS = [
    Network("nothing of it"),
    Network("1 % lost, none late", lose=0.01),
    Network("3 % lost, none late", lose=0.03),
    Network("1 % lost, 20 ms late", lose=0.01, delay=0.02),
    Network("3 % lost, 20 ms late", lose=0.03, delay=0.02),
    Network("25 % at once, the others 20 ms late", delay=0.02, at_once=0.25),
    Network("5 to 15 ms late", delay=0.01, jitter=0.005),
    Network("1 % damaged", damage=0.01),
]

# Who sends: the program with these words, or Linux where there are none; what is set of Linux, on both sides; and its window of receipt, or 0 where
# it has what it likes.
Column = collections.namedtuple("Column", "name words settings window")

with open("/proc/sys/net/ipv4/tcp_congestion_control") as file:
    USUAL = file.read().strip()

COLUMNS = [
    Column("tap, selective", ["--recovery", "selective"], {}, 0),
    Column("tap, NewReno", ["--recovery", "newreno"], {}, 0),
    Column("tap, plain", ["--recovery", "plain"], {}, 0),
    Column("Linux, Reno, no SACK, 1 MB", [], {"tcp_sack": 0, "tcp_congestion_control": "reno"}, MEGABYTE),
    Column("Linux, no timestamps either", [], {"tcp_sack": 0, "tcp_timestamps": 0, "tcp_congestion_control": "reno"}, MEGABYTE),
    Column(f"Linux as it comes ({USUAL})", [], {}, 0),
]

# Of a transfer: the seconds, None where they are too many; the segments with octets that went out again, and those that were lost or damaged.
Outcome = collections.namedtuple("Outcome", "seconds again spoiled")

program, device, word, runs = sys.argv[1:]


class Wrong(Exception):
    """A transfer of which other octets come, or none."""


def want(holds, what):
    if not holds:
        raise Wrong(what)


def source_octets(count):
    """What the program's source gives: 0 to 250, and again."""
    return (bytes(range(251)) * (count // 251 + 1))[:count]


# ---- The network


def is_tcp(frame):
    return len(frame) >= 54 and frame[12:14] == b"\x08\x00" and frame[23] == 6


def is_sum_right(octets):
    """Whether the ones' complement sum of RFC 1071 is all ones: 2^16 is 1 modulo 2^16 - 1, so all the octets as one number are a multiple of that."""
    return int.from_bytes(octets + bytes(len(octets) % 2), "big") % 0xFFFF == 0


def is_sound(frame):
    """Whether the sums of a frame are right: its header's, and its segment's with the pseudo-header (RFC 791 and RFC 9293, section 3.1)."""
    tcp, end = 14 + 4 * (frame[14] & 15), 14 + int.from_bytes(frame[16:18], "big")
    return is_sum_right(frame[14:tcp]) and is_sum_right(frame[26:34] + struct.pack(">HH", 6, end - tcp) + frame[tcp:end])


def damaged(frame, place):
    """The frame with the bit of this place flipped."""
    octets = bytearray(frame)
    octets[place // 8] ^= 1 << place % 8
    return bytes(octets)


class Way:
    """One direction of the network: frames enter it, wait until their moment, and leave it to a device."""

    def __init__(self, to, network, seed):
        self.to, self.network, self.chance = to, network, random.Random(seed)
        self.waiting, self.entered = [], 0
        self.sent, self.spoiled, self.unsound = linux_pair.Segments(), 0, 0

    def is_drawn(self, share):
        return share != 0 and self.chance.random() < share

    def late(self):
        if self.is_drawn(self.network.at_once):
            return 0
        return self.network.delay + self.network.jitter * self.chance.uniform(-1, 1)

    def enter(self, frame):
        """ARP passes as over a good network: the seconds are to be those of TCP, and it has no sum by which damage could be found."""
        if not is_tcp(frame):
            os.write(self.to, frame)
            return
        has_octets = self.sent.add(frame)
        if self.is_drawn(self.network.lose):
            self.spoiled += has_octets
            return
        if self.is_drawn(self.network.damage):
            self.spoiled += has_octets
            self.unsound += not is_sound(frame)
            frame = damaged(frame, int(self.chance.random() * 8 * len(frame)))
        self.entered += 1
        heapq.heappush(self.waiting, (time.monotonic() + self.late(), self.entered, frame))

    def leave(self):
        now = time.monotonic()
        while self.waiting and self.waiting[0][0] <= now:
            os.write(self.to, heapq.heappop(self.waiting)[2])


def frames_of(end):
    """What waits at an end, but so few frames that the other end's don't grow old."""
    with contextlib.suppress(BlockingIOError):
        for _ in range(32):
            yield os.read(end, 2048)


def pump(near, far, network, seed, told):
    """Carries frames both ways until it is ended, and then tells of the sender's segments, and how many frames had wrong sums as they came."""
    ways = {near: Way(far, network, f"{seed}, there"), far: Way(near, network, f"{seed}, back")}

    def tell(*_):
        there, back = ways.values()
        os.write(told, struct.pack("QQQ", there.sent.resent, there.spoiled, there.unsound + back.unsound))
        os._exit(0)

    signal.signal(signal.SIGTERM, tell)
    for end in ways:
        os.set_blocking(end, False)
    while True:
        moments = [way.waiting[0][0] for way in ways.values() if way.waiting]
        wait = max(0, min(moments) - time.monotonic()) if moments else None
        for end in select.select([near, far], [], [], wait)[0]:
            for frame in frames_of(end):
                ways[end].enter(frame)
        for way in ways.values():
            way.leave()


# ---- Its two ends


def enter_space(name, address, settings):
    """In a namespace of its own: a device with an address, in which all frames find room, and Linux set so."""
    linux_pair.enter_own_space()
    end = linux_pair.open_tap(name, address)
    subprocess.run(["ip", "link", "set", name, "txqueuelen", str(FRAMES)], check=True)
    for setting, value in settings.items():
        with open(f"/proc/sys/net/ipv4/{setting}", "w") as file:
            file.write(str(value))
    return end


def send(ends, column):
    """Linux as the sender: it hands its device on, takes one connection, and sends all."""
    end = enter_space("near", NEAR, column.settings)
    with socket.create_server((NEAR, SOURCE_PORT)) as server:
        socket.send_fds(ends, [b"here"], [end])
        connection, _ = server.accept()
        connection.sendall(source_octets(SIZE))
        connection.shutdown(socket.SHUT_WR)
        connection.recv(1)


def receive_all(window):
    """Connects, and reads to the end: the seconds, and whether the octets are those of the source."""
    came, began = bytearray(), time.monotonic()
    with socket.socket() as connection:
        if window:
            connection.setsockopt(socket.SOL_SOCKET, SO_RCVBUFFORCE, window)  # Linux doubles it, and takes half for the window
        connection.settimeout(MOST)
        connection.connect((NEAR, SOURCE_PORT))
        while part := connection.recv(1 << 18):
            if window and not came:
                # Now that it knows how much room a frame takes, it would take more than half.
                connection.setsockopt(socket.IPPROTO_TCP, socket.TCP_WINDOW_CLAMP, window)
            came += part
        seconds = time.monotonic() - began
    return {"seconds": seconds, "equal": came == source_octets(SIZE), "count": len(came)}


def receive(ends, column):
    """The receiver: it hands its device on, and begins once it is told to."""
    end = enter_space("far", FAR, column.settings)
    socket.send_fds(ends, [b"here"], [end])
    ends.recv(1)
    try:
        answer = receive_all(column.window)
    except TimeoutError:
        answer = {"seconds": MOST + 1, "equal": True}
    except OSError as fault:
        answer = {"fault": str(fault)}
    ends.send(json.dumps(answer).encode())


@contextlib.contextmanager
def process(body, *arguments):
    """In the block a process does this."""
    number = linux_pair.child(body, *arguments)
    try:
        yield number
    finally:
        with contextlib.suppress(ProcessLookupError):
            os.kill(number, signal.SIGKILL)
        os.waitpid(number, 0)


@contextlib.contextmanager
def side_of_linux(body, column):
    """In the block a process is one side: the socket to it, and its device."""
    ours, theirs = socket.socketpair(socket.AF_UNIX, socket.SOCK_SEQPACKET)
    with ours, process(body, theirs, column):
        theirs.close()
        ours.settimeout(20)
        _, ends, *_ = socket.recv_fds(ours, 4, 1)
        want(ends, "no device of Linux's side")
        try:
            yield ours, ends[0]
        finally:
            os.close(ends[0])


def read_about_device(name):
    with open(f"/sys/class/net/{device}/{name}") as file:
        return file.read().strip()


def await_program(tap):
    """The program has the device once that has a carrier, and Linux sends once it calls it up."""
    for _ in range(500):
        if [read_about_device(name) for name in ("carrier", "operstate")] == ["1", "up"]:
            return
        if tap.poll() is not None:
            break
        time.sleep(0.01)
    tap.kill()
    raise Wrong(tap.communicate()[1].decode().strip() or "the program doesn't take the device")


@contextlib.contextmanager
def side_of_program(words):
    """In the block the program serves its source: a packet socket on Linux's side of its device, where nothing of Linux answers."""
    with socket.socket(socket.AF_PACKET, socket.SOCK_RAW, 0) as wire:
        wire.setsockopt(SOL_PACKET, PACKET_IGNORE_OUTGOING, 1)
        wire.setsockopt(socket.SOL_SOCKET, SO_RCVBUFFORCE, FRAMES << 12)
        command = [program, "--tap", device, "--addr", NEAR + "/24", "--source", str(SIZE), *words]
        with subprocess.Popen(command, stdin=subprocess.DEVNULL, stderr=subprocess.PIPE) as tap:
            try:
                await_program(tap)
                wire.bind((device, ETH_P_ALL))
                yield wire.fileno()
            finally:
                tap.kill()


@contextlib.contextmanager
def sender(column):
    if column.words:
        with side_of_program(column.words) as end:
            yield end
    else:
        with side_of_linux(send, column) as (_, end):
            yield end


# ---- The transfers


def await_answer(ours):
    """What the receiver says of its transfer: the seconds, or None where they are too many."""
    ours.settimeout(MOST)
    try:
        answer = json.loads(ours.recv(1000) or b'{"fault": "the receiver ends"}')
    except TimeoutError:
        return None
    want("fault" not in answer, answer.get("fault"))
    want(answer["equal"], f"{answer.get('count')} octets come, or others")
    return answer["seconds"] if answer["seconds"] <= MOST else None


def transfer(network, column, seed):
    with sender(column) as near, side_of_linux(receive, column) as (ours, far):
        told, tell = os.pipe()
        with open(told, "rb", buffering=0) as told, process(pump, near, far, network, seed, tell) as pumping:
            os.close(tell)
            ours.send(b"!")
            seconds = await_answer(ours)
            os.kill(pumping, signal.SIGTERM)
            counts = told.read(24)
    want(len(counts) == 24, "the pump ends")
    again, spoiled, unsound = struct.unpack("QQQ", counts)
    want(unsound == 0, f"{unsound} frames have wrong sums before they are damaged")
    return Outcome(seconds, again, spoiled)


def shown(outcome, network):
    if outcome.seconds is None:
        return f"over {MOST}"
    return f"{outcome.seconds:.1f} s; {outcome.again:,} again, {outcome.spoiled:,} {'damaged' if network.damage else 'lost'}"


def try_once(network, column, run):
    """The outcome of one transfer, or of none what is wrong."""
    try:
        outcome = transfer(network, column, f"{network.name}, {run}")
        said = shown(outcome, network)
    except (Wrong, OSError, subprocess.SubprocessError) as fault:
        outcome, said = None, f"WRONG: {type(fault).__name__}: {fault}"
    print(f"{network.name}: {column.name}, run {run}: {said}", flush=True)
    return outcome


def cell(network, column):
    """The least of the runs, as it stands in the table, where all of them hold."""
    outcomes = [try_once(network, column, run) for run in range(1, int(runs) + 1)]
    if None in outcomes:
        return "WRONG"
    return shown(min(outcomes, key=lambda outcome: MOST + 1 if outcome.seconds is None else outcome.seconds), network)


def main():
    signal.signal(signal.SIGTERM, lambda *_: sys.exit(1))
    subprocess.run(["ip", "link", "set", device, "txqueuelen", str(FRAMES)], check=True)
    rows = [(network.name, *[cell(network, column) for column in COLUMNS]) for network in NETWORKS if word in network.name]
    print("\n| " + " | ".join(["Both ways", *[column.name for column in COLUMNS]]) + " |\n" + "|---" * (1 + len(COLUMNS)) + "|")
    for row in rows:
        print("| " + " | ".join(row) + " |")
    return 0 if rows and not any("WRONG" in row for row in rows) else 1


sys.exit(main())
