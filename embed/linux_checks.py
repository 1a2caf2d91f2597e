"""The checks of embed/try-linux: Linux's sockets and programs converse with embed/tap. They run in the namespace that try-linux made. Behind each the law of
one host is checked on what was captured and logged (linux_law.py).

linux_checks.py TAP DEVICE FOLDER WORD LONG RECOVERY: the program, its device, where captures go, a word that the names of the checks must have, or '',
whether the long checks are made and no others: long, or '', and how the program repairs losses where a check doesn't say so itself: plain, newreno
or selective.
"""

import collections
import contextlib
import fcntl
import os
import random
import re
import select
import signal
import socket
import struct
import subprocess
import sys
import tempfile
import termios
import threading
import time

import linux_guards
import linux_law
import linux_many
import linux_pair
from host import Host, Kind, Ready, Recovery, State
from linux_logged import LoggedHost

OURS = "10.0.0.2"  # the host's address
LINUX = "10.0.0.1"  # Linux's
FAR = "10.1.0.1"  # another of Linux's, off the link
SILENT = [f"10.0.0.{last}" for last in range(10, 250)]  # addresses of the link that nobody has
MAC = bytes([2, 0, 10, 0, 0, 2])  # the host's
MEGABYTE = 1 << 20
LONG, LONGEST = 300, 3000  # how many seconds a check may take, and one that is asked for as a long one

program, device, folder, word, is_long, recovery = sys.argv[1:]
rows = []
captures = []
altered = []  # captures that have frames with wrong sums
logged = []  # of each check that goes on the captures with their logs


class Wrong(Exception):
    """A check that doesn't hold."""


def want(holds, what):
    if not holds:
        raise Wrong(what)


def octets(count):
    return random.Random(count).randbytes(count)


# ---- The program


def next_capture():
    """Where the next capture goes, and its log, or None where none is kept."""
    capture = os.path.join(folder, f"{len(captures):02}.pcap")
    captures.append(capture)
    if not logged:
        return capture, None
    logged[-1].append((capture, os.path.join(folder, f"{len(captures) - 1:02}.log")))
    return logged[-1][-1]


def command(*words):
    capture, log = next_capture()
    logs = [] if log is None else ["--log", log]
    return [program, "--tap", device, "--addr", OURS + "/24", "--recovery", recovery, "--pcap", capture, *logs, *map(str, words)]


def read_about_device(name):
    with open(f"/sys/class/net/{device}/{name}") as file:
        return file.read().strip()


def await_carrier():
    """The program has the device once that has a carrier, and Linux sends once it calls it up."""
    for _ in range(500):
        if [read_about_device(name) for name in ("carrier", "operstate")] == ["1", "up"]:
            return
        time.sleep(0.01)
    raise Wrong("the program doesn't take the device")


class Tap:
    """The program, in a `with`: it runs with these words until the block ends."""

    def __init__(self, *words, **streams):
        self.words, self.streams = words, streams

    def __enter__(self):
        self.process = subprocess.Popen(command(*self.words), stderr=subprocess.PIPE, **self.streams)
        try:
            await_carrier()
        except Wrong:
            self.process.kill()
            raise Wrong(self.process.communicate()[1].decode().strip() or "the program doesn't take the device") from None
        return self

    def __exit__(self, *_):
        self.process.terminate()
        try:
            self.process.communicate(timeout=5)
        except subprocess.TimeoutExpired:
            self.process.kill()
            self.process.communicate()

    def result(self, seconds):
        """Its status and its words on standard error, once it has ended by itself."""
        try:
            _, errors = self.process.communicate(timeout=seconds)
        except subprocess.TimeoutExpired:
            raise Wrong(f"the program goes on after {seconds} s") from None
        return self.process.returncode, errors.decode().strip()


# ---- Linux's sockets


def connected(port):
    return socket.create_connection((OURS, port), timeout=20)


def listener():
    return socket.create_server((LINUX, 0))


def accepted(server):
    server.settimeout(20)
    connection, peer = server.accept()
    want(peer[0] == OURS, f"a connection from {peer}")
    connection.settimeout(20)
    return connection


def read_to_end(connection):
    parts = []
    while part := connection.recv(65536):
        parts.append(part)
    return b"".join(parts)


def reset(connection):
    connection.setsockopt(socket.SOL_SOCKET, socket.SO_LINGER, struct.pack("ii", 1, 0))
    connection.close()


def await_state(connection, wanted, seconds=10):
    """TCP_INFO begins with the state: 1 is ESTABLISHED, 7 CLOSE."""
    for _ in range(seconds * 100):
        if connection.getsockopt(socket.IPPROTO_TCP, socket.TCP_INFO, 1)[0] == wanted:
            return
        time.sleep(0.01)
    raise Wrong("Linux's connection doesn't come to its end")


def scaling_of(connection):
    """TCP_INFO has in octet 5 the options of both SYNs, 4 for the window scale, and in octet 6 the peer's shift and its own. None where it isn't in force."""
    info = connection.getsockopt(socket.IPPROTO_TCP, socket.TCP_INFO, 8)
    return (info[6] & 15, info[6] >> 4) if info[5] & 4 else None


def sacks_of(connection):
    """Of those options 2 is for selective acknowledgements (RFC 2018)."""
    return connection.getsockopt(socket.IPPROTO_TCP, socket.TCP_INFO, 8)[5] & 2 != 0


def expect_error(error, call, *arguments):
    try:
        call(*arguments)
    except error:
        return
    raise Wrong(f"no {error.__name__}")


@contextlib.contextmanager
def linux_with(name, value):
    """In the block Linux offers and takes the option of this name (1), or doesn't (0). The file is the namespace's own."""
    path = f"/proc/sys/net/ipv4/{name}"
    with open(path) as file:
        before = file.read()
    try:
        with open(path, "w") as file:
            file.write(str(value))
        yield
    finally:
        with open(path, "w") as file:
            file.write(before)


# ---- Frames that this program makes


def syn_frame(source, port, to_port):
    """A SYN from this address, whoever has it, to the host's port."""
    ends = socket.inet_aton(source) + socket.inet_aton(OURS)
    ip = struct.pack(">BBHHHBBH", 0x45, 0, 40, 0, 0, 64, 6, 0) + ends
    ip = ip[:10] + struct.pack(">H", linux_guards.ones_sum(ip)) + ip[12:]
    tcp = struct.pack(">HHIIBBHHH", port, to_port, 1000, 0, 0x50, 2, 65535, 0, 0)
    tcp = tcp[:16] + struct.pack(">H", linux_guards.ones_sum(ends + struct.pack(">HH", 6, 20) + tcp)) + tcp[18:]
    return MAC + bytes.fromhex(read_about_device("address").replace(":", "")) + b"\x08\x00" + ip + tcp


def segment_in(frame, port):
    """Of the TCP segment in a frame from or to this port its number, what it acknowledges, and how many octets it has; None where there is none."""
    if frame[12:14] != b"\x08\x00" or frame[23] != 6:
        return None
    tcp = 14 + 4 * (frame[14] & 15)
    if port not in struct.unpack(">HH", frame[tcp:tcp + 4]):
        return None
    size = 14 + int.from_bytes(frame[16:18], "big") - tcp - 4 * (frame[tcp + 12] >> 4)
    return (*struct.unpack(">II", frame[tcp + 4:tcp + 12]), size)


class OwnHost:
    """A host on the device in this process, in a `with`: its clock begins at 0, and `run` lets it go on. Each frame takes `late` seconds, either way."""

    def __init__(self, late=0.0, guards=True, **options):
        self.late, self.options, self.going, self.coming = late, {"guards": guards, **options}, collections.deque(), collections.deque()

    def __enter__(self):
        self.device = os.open("/dev/net/tun", os.O_RDWR | os.O_NONBLOCK)
        fcntl.ioctl(self.device, 0x400454CA, struct.pack("16sH", device.encode(), 0x1002))  # TUNSETIFF; IFF_TAP, IFF_NO_PI
        await_carrier()
        self.host, self.began = self.made(), time.monotonic()
        return self

    def made(self):
        routes = {"10.0.0.0/24": None}
        if not logged:
            return Host(MAC, OURS, routes, **self.options)
        return LoggedHost(MAC, OURS, routes, *next_capture(), **self.options)

    def __exit__(self, *_):
        os.close(self.device)
        self.host.free()

    def now(self):
        return int((time.monotonic() - self.began) * 1000)

    def pass_over(self, seconds):
        """So much time passes at once, of the host's clock alone."""
        self.began -= seconds

    def deliver(self, frame):
        self.host.deliver(self.now(), 0, frame)

    def run(self, until, hear=None, seconds=10):
        """Goes on until that holds, but no longer than ten seconds. Each frame that goes out is yielded. One that comes is heard so, or delivered."""
        end = time.monotonic() + seconds
        while not until():
            want(time.monotonic() < end, f"it doesn't come to that in {seconds} seconds")
            now = self.now()
            self.host.tick(now)
            while frame := self.host.next_frame(now):
                self.going.append((time.monotonic() + self.late, frame))
                yield frame
            for frame in self.due(self.going):
                os.write(self.device, frame)
            wait = min((way[0][0] for way in (self.going, self.coming) if way), default=float("inf")) - time.monotonic()
            if select.select([self.device], [], [], max(0, min(wait, 0.01)))[0]:
                self.coming.append((time.monotonic() + self.late, os.read(self.device, 2048)))
            for frame in self.due(self.coming):
                (hear or self.deliver)(frame)

    @staticmethod
    def due(way):
        """The frames whose time has come, each taken from those on the way."""
        while way and way[0][0] <= time.monotonic():
            yield way.popleft()[1]

    def runs(self, until):
        for _ in self.run(until):
            pass

    def connected_to(self, server):
        """A connection to Linux: the id here, and Linux's socket."""
        id = self.host.socket()
        self.host.connect(self.now(), random.getrandbits(32), id, server.getsockname())
        self.runs(until=lambda: Ready.OPENING not in self.host.ready(id) and select.select([server], [], [], 0)[0])
        return id, accepted(server)


# ---- The checks


def ping(size):
    with Tap():
        done = subprocess.run(["ping", "-q", "-c", "100", "-i", "0.01", "-W", "2", "-s", str(size), OURS], capture_output=True, text=True, timeout=30)
    counts = re.search(r"(\d+) packets transmitted, (\d+) received", done.stdout)
    want(counts and counts.groups() == ("100", "100"), done.stdout + done.stderr)
    return "100 of 100 answered"


def udp_echo(size):
    with Tap(), socket.socket(socket.AF_INET, socket.SOCK_DGRAM) as client:
        client.settimeout(5)
        client.connect((OURS, 7))
        for turn in range(10):
            data = octets(size + turn)[:size]
            client.send(data)
            want(client.recv(65536) == data, f"another datagram comes back, turn {turn}")
    return "10 came back equal"


def udp_refused():
    with Tap(), socket.socket(socket.AF_INET, socket.SOCK_DGRAM) as client:
        client.settimeout(5)
        client.connect((OURS, 9999))
        client.send(b"nobody")
        expect_error(ConnectionRefusedError, client.recv, 1)
    return "ECONNREFUSED"


def tcp_refused():
    with Tap():
        expect_error(ConnectionRefusedError, connected, 9999)
    return "ECONNREFUSED"


def udp_behind_silence():
    """Two datagrams of one socket: the first is for an address that nobody has, and the second doesn't wait for it."""
    with socket.socket(socket.AF_INET, socket.SOCK_DGRAM) as server, OwnHost() as own:
        server.bind((LINUX, 0))
        server.settimeout(0)
        id = own.host.socket(Kind.UDP)
        own.host.sendto(id, (SILENT[0], 9), b"to nobody")
        own.host.sendto(id, server.getsockname(), b"to Linux")
        frames = [*own.run(until=lambda: select.select([server], [], [], 0)[0])]
        came_at = own.now()
        want(server.recv(100) == b"to Linux", "another datagram comes")
        frames += own.run(until=lambda: own.now() > 4000)
    asked = sum(frame[12:14] == b"\x08\x06" and frame[38:42] == socket.inet_aton(SILENT[0]) for frame in frames)
    sent = sum(frame[12:14] == b"\x08\x00" for frame in frames)
    want(came_at < 1000, f"it comes after {came_at} ms")
    want((asked, sent) == (3, 1), f"{asked} requests for the silent address, {sent} datagrams")
    return "came at once; 3 requests for the other"


def doubled_frames(count):
    """So many datagrams of 0 to 65,507 octets each way, in turn. Of each way's frames every tenth comes twice, the copy at once behind it: how many arrive,
    to the host and from it."""
    sizes = [number * 65_507 // (count - 1) for number in range(count)]
    frames, came = [0, 0], [0, 0]

    def is_tenth(way):
        frames[way] += 1
        return frames[way] % 10 == 0

    with socket.socket(socket.AF_INET, socket.SOCK_DGRAM) as linux, OwnHost() as own:
        linux.bind((LINUX, 0))
        id = own.host.socket(Kind.UDP)
        own.host.bind(id, (OURS, 9))

        def hear(frame):
            own.deliver(frame)
            if is_tenth(0):
                own.deliver(frame)

        def arrived():
            return Ready.READ in own.host.ready(id)

        def go(until):
            end = time.monotonic() + 0.2
            for frame in own.run(until=lambda: until() or time.monotonic() > end, hear=hear):
                if is_tenth(1):
                    own.going.append((time.monotonic(), frame))

        for size in sizes:
            linux.sendto(octets(size), (OURS, 9))
            go(arrived)
            heard = []
            while arrived():
                heard.append(own.host.recvfrom(id)[0])
            came[0] += octets(size) in heard
        for size in sizes:
            own.host.sendto(id, linux.getsockname(), octets(size))
            go(lambda: select.select([linux], [], [], 0)[0])
            heard = []
            while select.select([linux], [], [], 0)[0]:
                heard.append(linux.recv(65_536))
            came[1] += octets(size) in heard
    return came, frames


def every_tenth_frame_twice(count):
    came, frames = doubled_frames(count)
    want(min(came) >= count - 4, f"{came[0]} arrive at the host, {came[1]} at Linux")
    return f"{came[0]} of {count} arrive at the host, {came[1]} at Linux; {frames[0]:,} and {frames[1]:,} frames"


class ReadyEcho:
    """An echo over an own host, which makes no call but those that a socket is ready for. `ended` counts the connections whose both sides are closed."""

    def __init__(self, own):
        self.own, self.host, self.waiting, self.ended = own, own.host, {}, 0
        self.listener = self.host.socket()
        self.host.bind(self.listener, (OURS, 7))
        self.host.listen(self.listener, 8)

    def serve(self, id):
        """What this socket is ready for is done, until it is ready for no more of it."""
        while id == self.listener and Ready.ACCEPT in self.host.ready(id):
            accepted, _ = self.host.accept(id)
            self.waiting[accepted] = b""
            self.serve(accepted)
        while id in self.waiting and (ready := self.host.ready(id)):
            want(Ready.FAILED not in ready, "a connection fails")
            if self.waiting[id]:
                if Ready.WRITE not in ready:
                    return
                room = self.host.send_room(id)
                want(self.host.send(id, self.waiting[id][:room]) == min(room, len(self.waiting[id])), "another number of octets is taken")
                self.waiting[id] = self.waiting[id][room:]
            elif Ready.READ in ready:
                length = self.host.recv_len(id)
                self.waiting[id] = self.host.recv(id, length)
                want(len(self.waiting[id]) == length, "another number of octets is read")
            elif Ready.ENDED in ready:
                self.host.close(id)
                del self.waiting[id]
                self.ended += 1
            else:
                return

    def hear(self, frame):
        """A frame comes: it touches the one socket that it is for. No other is ready then that something is to be done of."""
        id = self.host.concerns(frame)
        self.own.host.deliver(self.own.now(), random.getrandbits(32), frame)
        if id is not None:
            self.serve(id)
        id = 0
        while found := self.host.next_ready(id, Ready.ACCEPT | Ready.READ | Ready.ENDED | Ready.FAILED):
            id, ready = found
            want(self.waiting.get(id), f"a socket is forgotten: {id}, {ready}")


def echoes(own, count, size):
    """So many connections at once, each echoed by a program that asks what is ready."""
    echo_of, came = ReadyEcho(own), []

    def client(number):
        with connected(7) as connection:
            connection.settimeout(60)
            sender = threading.Thread(target=lambda: (connection.sendall(octets(size + number)), connection.shutdown(socket.SHUT_WR)))
            sender.start()
            came.append(read_to_end(connection) == octets(size + number))
            sender.join()

    clients = [threading.Thread(target=client, args=(number,)) for number in range(count)]
    for each in clients:
        each.start()
    for _ in own.run(until=lambda: len(came) == count, hear=echo_of.hear, seconds=60):
        pass
    for each in clients:
        each.join()
    want(all(came) and echo_of.ended == count, f"{sum(came)} come back equal, {echo_of.ended} end")
    return f"{count} echoes of {size:,} octets and more"


def by_readiness(count, size):
    with OwnHost() as own:
        return echoes(own, count, size)


def over_unruly_network(count, size, share, late):
    """Of the datagrams of each way such a share is lost, as many are damaged, as many come twice, and each is late by up to so many seconds."""
    with OwnHost(recovery=Recovery.SELECTIVE, first_segments=10, least_timeout=200, first_threshold=1 << 30) as own:
        own.going, own.coming = (linux_law.UnrulyWay(seed, share, late) for seed in ("there", "back"))
        altered.append(captures[-1])
        said = echoes(own, count, size)
        counts = own.host.counters()
    damaged = counts.ip_header + counts.ip_sum + counts.upper_header + counts.upper_sum
    want(damaged > 0, "no damaged frame came")
    return f"{said}; {counts.frames_in:,} frames in, {damaged:,} of them damaged, {counts.frames_out:,} out"


def flood_of_openings():
    """SYNs from addresses of the link that nobody has take all places of the listener. Each is free once its hop has kept silent for three seconds."""
    with Tap(), socket.socket(socket.AF_PACKET, socket.SOCK_RAW) as wire:
        wire.bind((device, 0))
        for turn in range(1000):
            wire.send(syn_frame(SILENT[turn % len(SILENT)], 1024 + turn, 7))
            time.sleep(0.005)
        began = time.monotonic()
        while True:
            try:
                client = socket.create_connection((OURS, 7), timeout=0.25)
                break
            except TimeoutError:
                want(time.monotonic() - began < 5, "no connection in five seconds")
        seconds = time.monotonic() - began
        with client:
            client.settimeout(5)
            client.sendall(b"hello")
            want(client.recv(5) == b"hello", "other octets come back")
    want(seconds > 0.3, "the flood took no place")
    return f"a client gets in {seconds:.1f} s after its end"


def conversation(connection, is_over):
    """Round trips of five octets over an open connection until that is over, each in turn: how long each took, in seconds."""
    turns = []
    while not is_over.is_set():
        began = time.monotonic()
        connection.sendall(b"hello")
        want(connection.recv(5, socket.MSG_WAITALL) == b"hello", "other octets come back")
        turns.append(time.monotonic() - began)
    return turns


def flood(sources, *words):
    """SYNs from these addresses, 20,000 a second, while a connection goes on and the places of the listener are taken; then a client opens another."""
    frames = [syn_frame(source, 1024 + number % 60000, 7) for number, source in enumerate(sources)]
    turns, is_over = [], threading.Event()
    with Tap(*words), socket.socket(socket.AF_PACKET, socket.SOCK_RAW) as wire, connected(7) as open_one:
        wire.bind((device, 0))
        talker = threading.Thread(target=lambda: turns.extend(conversation(open_one, is_over)))
        talker.start()
        began = time.monotonic()
        for number, frame in enumerate(frames):
            if number % 100 == 0:
                time.sleep(max(0, began + number / 20_000 - time.monotonic()))
            wire.send(frame)
        took, began = time.monotonic() - began, time.monotonic()
        with socket.create_connection((OURS, 7), timeout=10) as client:
            seconds = time.monotonic() - began
            client.sendall(b"hello")
            want(client.recv(5, socket.MSG_WAITALL) == b"hello", "other octets come back")
        is_over.set()
        talker.join()
    want(len(turns) > 10, f"the open connection makes {len(turns)} round trips")
    return f"{len(frames):,} in {took:.1f} s; the open connection made {len(turns):,} round trips, the slowest {max(turns) * 1000:.0f} ms; a client gets in after {seconds:.1f} s"


def flood_of_the_link():
    return flood(random.Random(1).choices(SILENT, k=100_000))


def flood_from_beyond():
    """Each SYN-ACK goes out to the gateway, which passes it on to nobody."""
    chosen = random.Random(2)
    return flood([f"10.{chosen.randrange(16, 250)}.{chosen.randrange(250)}.{chosen.randrange(1, 250)}" for _ in range(100_000)], "--gateway", LINUX)


def host_closes_first(count):
    """So many requests in turn. Each leaves a connection in TIME-WAIT at the host, which has 64 places."""
    with Tap("--source", 100):
        for _ in range(count):
            with connected(19) as client:
                want(read_to_end(client) == bytes(range(100)), "other octets come")
    return f"{count:,} in turn, none refused"


def clients_at_once(count, *words):
    """So many connections at a time, each with a place of its own and an echo."""
    with Tap(*words), contextlib.ExitStack() as left:
        clients = [left.enter_context(connected(7)) for _ in range(count)]
        for turn, client in enumerate(clients):
            client.sendall(octets(1000 + turn))
            client.shutdown(socket.SHUT_WR)
        for turn, client in enumerate(clients):
            want(read_to_end(client) == octets(1000 + turn), "other octets come back")
    return f"{count}, echoed"


def open_at_once(count, size, *words):
    """So many connections, all open at the same time before the first is closed, and an echo of so many octets on each."""
    with Tap(*words):
        course = linux_many.echoes((OURS, 7), count, size)
    want((course.open, course.equal, course.ended) == (count,) * 3, f"{course.open} are open at once, {course.equal} echoes are equal, {course.ended} end")
    opening, echoing, ending = course.seconds
    return f"{count:,}, echoed; {opening:.1f} s to open, {echoing:.1f} for the echoes, {ending:.1f} to close"


def bounded_openings():
    """Of eight clients at once four get in; the SYNs of the others are passed over, and come again a second later."""
    with Tap("--openings", 4):
        clients = [socket.socket() for _ in range(8)]
        began = time.monotonic()
        times = []
        for client in clients:
            client.setblocking(False)
            client.connect_ex((OURS, 7))
        waiting = set(clients)
        while waiting and time.monotonic() - began < 15:
            for client in select.select([], list(waiting), [], 0.1)[1]:
                want(client.getsockopt(socket.SOL_SOCKET, socket.SO_ERROR) == 0, "a client is refused")
                times.append(time.monotonic() - began)
                waiting.remove(client)
        for client in clients:
            client.close()
    want(not waiting, f"{len(waiting)} clients don't get in")
    want(times[3] < 0.9 <= times[4], f"the fourth gets in after {times[3]:.1f} s, the fifth after {times[4]:.1f}")
    return f"four at once, the last of eight after {times[7]:.1f} s"


def linux_opens_and_closes():
    with Tap():
        for turn in range(12):
            with connected(7) as client:
                client.sendall(octets(1000 + turn))
                client.shutdown(socket.SHUT_WR)
                want(read_to_end(client) == octets(1000 + turn), "other octets come back")
                await_state(client, 7)
    return "12 in turn, echoed; both sides closed"


def linux_opens_host_closes():
    with Tap("--source", 5000), connected(19) as client:
        want(read_to_end(client) == bytes(i % 251 for i in range(5000)), "other octets come")
        client.shutdown(socket.SHUT_WR)
        await_state(client, 7)
    return "5,000 octets of the source, then its end"


def host_opens_and_closes():
    with listener() as server, Tap("--connect", LINUX, server.getsockname()[1], stdin=subprocess.DEVNULL, stdout=subprocess.PIPE) as tap:
        with accepted(server) as connection:
            want(read_to_end(connection) == b"", "octets of an empty input")
            connection.sendall(b"bye")
        output = tap.process.stdout.read()
        status = tap.result(10)
    want(status == (0, "") and output == b"bye", f"{status}, {output}")
    return "half-closed, and read to its end"


def host_opens_past_gateway():
    with socket.create_server((FAR, 0)) as server:
        words = ["--gateway", LINUX, "--connect", FAR, server.getsockname()[1]]
        with Tap(*words, stdin=subprocess.DEVNULL, stdout=subprocess.PIPE) as tap:
            with accepted(server) as connection:
                connection.sendall(b"from afar")
            output = tap.process.stdout.read()
            status = tap.result(10)
    want(status == (0, "") and output == b"from afar", f"{status}, {output}")
    return "9 octets of an address past the gateway"


def host_opens_linux_closes():
    with listener() as server, Tap("--connect", LINUX, server.getsockname()[1], stdin=subprocess.PIPE, stdout=subprocess.PIPE) as tap:
        with accepted(server) as connection:
            connection.sendall(b"hello")
            connection.shutdown(socket.SHUT_WR)
            output = tap.process.stdout.read(5)
            time.sleep(0.2)
            tap.process.stdin.write(b"late")
            tap.process.stdin.close()
            tap.process.stdin = None
            want(read_to_end(connection) == b"late", "other octets come")
            await_state(connection, 7)
        status = tap.result(10)
    want(status == (0, "") and output == b"hello", f"{status}, {output}")
    return "octets went on the other way after it"


def linux_resets_what_it_opened():
    with Tap():
        for _ in range(12):
            client = connected(7)
            client.sendall(b"echo")
            want(client.recv(4) == b"echo", "other octets come back")
            reset(client)
        with connected(7) as client:
            client.sendall(b"after")
            want(client.recv(5) == b"after", "other octets come back")
    return "12 in turn, then a thirteenth serves"


def linux_resets_what_the_host_opened():
    with listener() as server, Tap("--connect", LINUX, server.getsockname()[1], stdin=subprocess.PIPE, stdout=subprocess.DEVNULL) as tap:
        connection = accepted(server)
        tap.process.stdin.write(b"x")
        tap.process.stdin.flush()
        want(connection.recv(1) == b"x", "another octet comes")
        reset(connection)
        status = tap.result(10)
    want(status == (1, "tap: connection: ECONNRESET"), f"{status}")
    return "ECONNRESET"


def host_resets_what_it_opened():
    with listener() as server, Tap("--connect", LINUX, server.getsockname()[1], stdin=subprocess.PIPE, stdout=subprocess.PIPE) as tap:
        with accepted(server) as connection:
            tap.process.stdout.close()
            tap.process.stdout = None
            expect_error(ConnectionResetError, connection.sendall, octets(16 * MEGABYTE))
        status = tap.result(10)
    want(status[0] == 1, f"{status}")
    return "ECONNRESET told to Linux"


def host_aborts():
    """All that came was read and acknowledged, so a close would end the stream; an abort resets it."""
    with listener() as server, OwnHost() as own:
        id, connection = own.connected_to(server)
        with connection:
            own.host.send(id, b"hello")
            own.runs(until=lambda: select.select([connection], [], [], 0)[0])
            want(connection.recv(5) == b"hello", "other octets come")
            own.host.abort(id)
            own.runs(until=lambda: select.select([connection], [], [], 0)[0])
            expect_error(ConnectionResetError, connection.recv, 1)
    return "ECONNRESET told to Linux"


def exchanges_of_two_writes(turns, no_delay):
    """Two small writes, a turn apart, then an answer, so many times. The round trip takes 2 ms. The longest of the last ten, in milliseconds."""
    took = []
    with listener() as server, OwnHost(late=0.001) as own:
        id, connection = own.connected_to(server)
        own.host.set_nodelay(id, no_delay)
        with connection:
            connection.setsockopt(socket.IPPROTO_TCP, socket.TCP_NODELAY, 1)

            def answer():
                for _ in range(turns):
                    asked = b""
                    while len(asked) < 20:
                        asked += connection.recv(20 - len(asked))
                    connection.sendall(b"answer")

            server_side = threading.Thread(target=answer)
            server_side.start()
            for _ in range(turns):
                began = time.monotonic()
                for part in (b"0123456789", b"abcdefghij"):
                    own.host.send(id, part)
                    own.runs(until=iter((False, True)).__next__)
                own.runs(until=lambda: own.host.recv_len(id) == 6)
                want(own.host.recv(id, 6) == b"answer", "another answer comes")
                took.append(1000 * (time.monotonic() - began))
            server_side.join()
    return max(took[-10:])


def no_delay():
    waits, goes = (exchanges_of_two_writes(40, on) for on in (False, True))
    want(goes < 10, f"it takes {goes:.1f} ms")
    return f"{goes:.1f} ms at most; without {waits:.1f}"


def told_alive(own, id, port):
    """Linux says nothing for ten seconds of the host's clock, is asked on the connection to this port, and answers. How many milliseconds it said nothing."""
    heard, asked, answers = [own.now()], [], []

    def hear(frame):
        own.deliver(frame)
        if found := segment_in(frame, port):
            (answers if asked else heard).append(found if asked else own.now())

    own.pass_over(9)
    for frame in own.run(until=lambda: answers, hear=hear):
        asked.extend((own.now(), *found) for found in [segment_in(frame, port)] if found)
    since = heard[-1]
    want(len(asked) == 1 and len(answers) == 1, f"{len(asked)} segments of the host, {len(answers)} of Linux")
    (moment, number, _, size), (_, acknowledged, of_linux) = asked[0], answers[0]
    want((size, of_linux) == (0, 0), f"{size} octets ask, {of_linux} answer")
    want(acknowledged == (number + 1) % 2**32, f"the number is {number}, and Linux waits for {acknowledged}")
    want(moment - since >= 9500, f"Linux is asked after {moment - since} ms")
    want(own.host.state(id) == State.ESTABLISHED, "the connection is over")
    return moment - since


def silent_peer():
    """Linux is asked whether it is there, and answers. Then no frame comes any more, and the clock goes from one deadline of the host to the next."""
    with listener() as server, OwnHost() as own:
        id, connection = own.connected_to(server)
        with connection:
            own.host.set_keepalive(id, 10_000)
            port = server.getsockname()[1]
            silences = [told_alive(own, id, port) for _ in range(2)]
            own.host.send(id, b"hello")
            own.runs(until=lambda: own.host.info(id).held == 0)
            want(connection.recv(5) == b"hello", "other octets come")
            began, probes = own.now(), 0
            while Ready.FAILED not in own.host.ready(id):
                now = own.host.next_deadline()
                want(now is not None, "the host waits for nothing more of a peer that is gone")
                own.host.tick(now)
                while frame := own.host.next_frame(now):
                    probes += segment_in(frame, port) is not None
            expect_error(TimeoutError, own.host.recv, id, 1)
    want(probes == 12, f"{probes} probes of a peer that is gone")
    after = " and ".join(f"{silence / 1000:.1f}" for silence in silences)
    return f"asked after {after} s, and answered; cut off, ETIMEDOUT after {probes} probes in {(now - began) / 1000:.0f} s"


def read_among_forged(data, guards):
    """What is read of octets that Linux sends, where before each segment of its own a forged one comes, with other octets and an acknowledgement
    that is 10^9 older."""
    with listener() as server, OwnHost(guards=guards) as own:
        id, connection = own.connected_to(server)
        port, came = server.getsockname()[1], bytearray()

        def hear(frame):
            found = segment_in(frame, port)
            if found and found[2]:
                own.deliver(linux_guards.forged(frame))
            own.deliver(frame)
            came.extend(own.host.recv(id, own.host.recv_len(id)))

        with connection:
            sender = threading.Thread(target=connection.sendall, args=(data,))
            sender.start()
            for _ in own.run(until=lambda: len(came) == len(data), hear=hear):
                pass
            sender.join()
    return bytes(came)


def forged_octets():
    data = octets(MEGABYTE)
    want(read_among_forged(data, guards=True) == data, "forged octets are read")
    want(read_among_forged(data, guards=False) != data, "the forged segments would do no harm to a host that isn't on guard")
    return "equal; a host that isn't on guard reads forged octets"


def out_of_step():
    first, whole, until = linux_guards.out_of_step(guards=True)
    want(first <= 30, f"they exchange {first} frames at one moment")
    without, _, _ = linux_guards.out_of_step(guards=False)
    want(without == linux_guards.MOST_FRAMES, f"without guards they fall silent after {without} frames")
    return f"{first} frames at one moment, {whole} in {until / 1000:.0f} s, then none; without guards no end"


def linux_refuses():
    done = subprocess.run(command("--connect", LINUX, 9999), stdin=subprocess.DEVNULL, capture_output=True, timeout=10)
    status = (done.returncode, done.stderr.decode().strip())
    want(status == (1, "tap: connection: ECONNREFUSED"), f"{status}")
    return "ECONNREFUSED"


def echo(size, *words):
    data = octets(size)
    with Tap(*words), connected(7) as client:
        client.settimeout(60)
        sender = threading.Thread(target=lambda: (client.sendall(data), client.shutdown(socket.SHUT_WR)), daemon=True)
        sender.start()
        want(read_to_end(client) == data, "other octets come back")
        sender.join()
        await_state(client, 7)
    return "equal"


def statistics():
    """A second after a connection is open, its line has its state and its peer, and the line of counts has its frames."""
    with Tap("--stats", "1") as tap, connected(7) as client:
        client.settimeout(20)
        client.sendall(octets(1000))
        want(client.recv(1000, socket.MSG_WAITALL) == octets(1000), "other octets come back")
        time.sleep(2.5)
        tap.process.terminate()
        status, said = tap.result(5)
        peer = f"{LINUX}:{client.getsockname()[1]}"
    counts = re.search(r"^tap: (\d+) frames in, (\d+) out; octets: (\d+) in, (\d+) out; dropped:", said, re.MULTILINE)
    want(status == 0 and counts and all(int(count) >= 3 for count in counts.groups()), said)
    want(re.search(rf"^tap: \d+ ESTABLISHED {re.escape(peer)} in_flight 0 unsent 0 readable 0 ", said, re.MULTILINE), said)
    return "a line of counts, and one of the connection"


def send_in_turn(connection, data):
    """A segment goes only once the one before is acknowledged."""
    for at in range(0, len(data), 1460):
        connection.sendall(data[at:at + 1460])
        while struct.unpack("i", fcntl.ioctl(connection, termios.TIOCOUTQ, b"four"))[0]:
            time.sleep(0.0005)


def to_host(size, *words, send=socket.socket.sendall):
    data = octets(size)
    with listener() as server, tempfile.TemporaryFile() as output:
        with Tap("--connect", LINUX, server.getsockname()[1], *words, stdin=subprocess.DEVNULL, stdout=output) as tap:
            with accepted(server) as connection:
                connection.settimeout(LONGEST)  # of the whole, not of a call
                send(connection, data)
                connection.shutdown(socket.SHUT_WR)
                want(read_to_end(connection) == b"", "octets of an empty input")
            status = tap.result(LONG // 2)  # Linux still sends what it has taken, and waits longer for each loss of the same segment
        output.seek(0)
        want(status == (0, "") and output.read() == data, f"other octets come, or {status}")
    return "equal"


def settled(of, *words):
    """What Linux knows of an option, of a connection that it opened and of one that the host did."""
    with Tap(*words), connected(7) as client:
        client.sendall(b"echo")
        want(client.recv(4) == b"echo", "other octets come back")
        opened = of(client)
    with listener() as server, Tap("--connect", LINUX, server.getsockname()[1], *words, stdin=subprocess.DEVNULL, stdout=subprocess.DEVNULL) as tap:
        with accepted(server) as connection:
            took = of(connection)
            want(read_to_end(connection) == b"", "octets of an empty input")
        want(tap.result(10) == (0, ""), "the program ends otherwise")
    return opened, took


def scaled():
    told = settled(scaling_of)
    own = scale_of_linux()
    want(own and told == ((5, own), (5, own)), f"{told}, and Linux's SYN has {own}")
    return f"shift 5 of the host, and {own} of Linux, whoever opens"


def not_scaled():
    want(settled(scaling_of, "--no-scale") == (None, None), "the option is in force")
    return "no option in force, whoever opens"


def not_scaled_by_linux(body, size):
    with linux_with("tcp_window_scaling", 0):
        want(settled(scaling_of) == (None, None), "the option is in force")
        return body(size)


def selective():
    want(settled(sacks_of, "--recovery", "selective") == (True, True), "the option isn't in force")
    want(settled(sacks_of, "--recovery", "newreno") == (False, False), "the option is in force without being wanted")
    return "in force, whoever opens, and only by --recovery selective"


def counted_by_linux(*names):
    """Numbers that Linux counts of all its connections, by their names in TcpExt."""
    with open("/proc/net/netstat") as file:
        titles, numbers = [line.split() for line in file if line.startswith("TcpExt:")]
    counts = dict(zip(titles, numbers))
    return [int(counts[name]) for name in names]


def repaired_by_reports(size, *words):
    """Linux repairs losses by what the host reports, and finds no report wrong."""
    names = "TCPSackRecovery", "TCPSACKDiscard"
    before = counted_by_linux(*names)
    said = to_host(size, "--recovery", "selective", *words)
    recoveries, wrong = [now - then for now, then in zip(counted_by_linux(*names), before)]
    want(recoveries > 0 and wrong == 0, f"{recoveries} recoveries by reports, {wrong} reports are wrong")
    return f"{said}; {recoveries} recoveries by reports"


def not_selective_by_linux(body, size, *words):
    with linux_with("tcp_sack", 0):
        want(settled(sacks_of, "--recovery", "selective") == (False, False), "the option is in force")
        return body(size, "--recovery", "selective", *words)


def to_host_in_turn(size, *words):
    return to_host(size, *words, send=send_in_turn)


def among_forged(size):
    with linux_law.frames_beside(device, linux_law.forged) as sent:
        result = to_host_in_turn(size)
    altered.append(captures[-1])
    want(len(sent) > 1000, f"{len(sent)} forged segments came")
    return f"{result}; {len(sent):,} forged"


def among_late_copies(size, *words):
    with linux_law.frames_beside(device, linux_law.LateCopies(size, 7)) as sent:
        result = to_host(size, *words)
    want(len(sent) > 100, f"{len(sent)} copies came")
    return f"{result}; {len(sent):,} copies"


def to_host_late(size, seconds):
    """Nobody takes what the program reads for so long: the host's window closes, and Linux probes it."""
    data = octets(size)
    with listener() as server:
        words = ["--patience", 200, "--connect", LINUX, server.getsockname()[1]]
        with Tap(*words, stdin=subprocess.DEVNULL, stdout=subprocess.PIPE) as tap:
            with accepted(server) as connection:
                connection.settimeout(LONG)
                sender = threading.Thread(target=lambda: (connection.sendall(data), connection.shutdown(socket.SHUT_WR)), daemon=True)
                sender.start()
                time.sleep(seconds)
                want(sender.is_alive(), "Linux has sent all before anything is read")
                came = tap.process.stdout.read()
                sender.join()
                want(read_to_end(connection) == b"", "octets of an empty input")
            status = tap.result(20)
    want(status == (0, "") and came == data, f"{len(came)} octets come, or others, or {status}")
    return "equal"


def read_from_host(size, *words):
    """Linux reads what the host sends. The program's status and words."""
    data = octets(size)
    with listener() as server, tempfile.TemporaryFile() as given:
        given.write(data)
        given.seek(0)
        with Tap("--connect", LINUX, server.getsockname()[1], *words, stdin=given, stdout=subprocess.DEVNULL) as tap:
            with accepted(server) as connection:
                came = read_to_end(connection)
            status = tap.result(20)
    want(came == data, f"{len(came)} octets come, or others, and {status}")
    return status


def from_host(size, *words):
    status = read_from_host(size, *words)
    want(status == (0, ""), f"{status}")
    return "equal"


def scale_of_linux():
    """The shift of Linux's first SYN of the last capture; None where it has no such option (RFC 7323 section 2.2)."""
    with open(captures[-1], "rb") as file:
        file.read(24)
        while head := file.read(16):
            frame = file.read(struct.unpack("<I", head[8:12])[0])
            tcp = 14 + 4 * (frame[14] & 15)
            if frame[6:8] == b"\x02\x00" or frame[12:14] != b"\x08\x00" or frame[23] != 6 or not frame[tcp + 13] & 2:
                continue
            options = frame[tcp + 20:tcp + 4 * (frame[tcp + 12] >> 4)]
            while options and options[0] != 0:
                if options[0] == 3:
                    return options[2]
                options = options[1 if options[0] == 1 else options[1]:]
    return None


def segments_of(is_of_host):
    """The segments of the last capture in one direction, and how many frames they are among."""
    segments, frames = linux_pair.Segments(), 0
    with open(captures[-1], "rb") as file:
        file.read(24)
        while head := file.read(16):
            frame = file.read(struct.unpack("<I", head[8:12])[0])
            if (frame[6:8] == b"\x02\x00") == is_of_host:
                frames += 1
                segments.add(frame)
    return segments, frames


def again(filled, resent):
    return f"equal; {filled:,} segments, {resent:,} of them again"


def to_host_counted(size, *words):
    """A capture has what Linux sends before any of it is lost."""
    to_host(size, *words)
    segments, _ = segments_of(is_of_host=False)
    return again(segments.filled, segments.resent)


def from_host_counted(size, *words):
    """A capture has what the host sends but what is lost, of which the program knows the number. All numbers come at last."""
    status, said = read_from_host(size, "--verbose", *words)
    sent = re.search(r"(\d+) out;", said)
    want(status == 0 and sent, f"{status}, {said}")
    segments, frames = segments_of(is_of_host=True)
    filled = segments.filled + int(sent.group(1)) - frames
    return again(filled, filled - len(segments.numbers))


def linux_alone(size, one_in):
    equal, filled, resent = linux_pair.transfer(size, one_in)
    want(equal, "other octets come")
    return again(filled, resent)


def from_host_late(size, buffer):
    """Linux's window closes, and the host probes it until Linux reads on. Its buffer has so many octets, or where that is 0 as many as Linux likes."""
    data = octets(size)
    with listener() as server, tempfile.TemporaryFile() as given:
        given.write(data)
        given.seek(0)
        if buffer:
            server.setsockopt(socket.SOL_SOCKET, socket.SO_RCVBUF, buffer)
        words = ["--patience", 200, "--connect", LINUX, server.getsockname()[1]]
        with Tap(*words, stdin=given, stdout=subprocess.DEVNULL) as tap:
            with accepted(server) as connection:
                time.sleep(60)
                came = read_to_end(connection)
            status = tap.result(20)
    want(status == (0, "") and came == data, f"{len(came)} octets come, or others, or {status}")
    return "equal"


def page():
    """curl, Linux, the host and the program, and python's server on Linux's own loopback."""
    data = octets(300000)
    with tempfile.TemporaryDirectory() as pages:
        with open(os.path.join(pages, "page.html"), "wb") as file:
            file.write(data)
        words = [sys.executable, "-m", "http.server", "--bind", "127.0.0.1", "--directory", pages, "8000"]
        server = subprocess.Popen(words, stdout=subprocess.DEVNULL, stderr=subprocess.DEVNULL)
        try:
            await_server(8000)
            with Tap("--forward", 80, "127.0.0.1:8000"):
                for _ in range(3):
                    done = subprocess.run(["curl", "-sS", "--max-time", "100", f"http://{OURS}/page.html"], capture_output=True, timeout=120)
                    want(done.returncode == 0, done.stderr.decode())
                    want(done.stdout == data, "another page comes")
        finally:
            server.kill()
            server.wait()
    return "300,000 octets, equal, 3 times"


def await_server(port):
    for _ in range(500):
        try:
            socket.create_connection(("127.0.0.1", port), timeout=1).close()
            return
        except OSError:
            time.sleep(0.02)
    raise Wrong("python's server doesn't come up")


def forward_refused():
    def ask():
        with connected(80) as client:
            client.recv(1)

    with Tap("--forward", 80, "127.0.0.1:9999"):
        expect_error(ConnectionResetError, ask)
    return "accepted, and reset at once"


def forward_reset():
    """A reset of the client is passed on to the server."""
    with socket.create_server(("127.0.0.1", 0)) as server:
        with Tap("--forward", 80, f"127.0.0.1:{server.getsockname()[1]}"):
            client = connected(80)
            client.sendall(b"x")
            server.settimeout(10)
            with server.accept()[0] as connection:
                connection.settimeout(10)
                want(connection.recv(1) == b"x", "another octet comes")
                reset(client)
                expect_error(ConnectionResetError, connection.recv, 1)
    return "ECONNRESET told to the server"


def forward_server_reset():
    with socket.create_server(("127.0.0.1", 0)) as server:
        with Tap("--forward", 80, f"127.0.0.1:{server.getsockname()[1]}"), connected(80) as client:
            client.sendall(b"x")
            server.settimeout(10)
            connection = server.accept()[0]
            want(connection.recv(1) == b"x", "another octet comes")
            reset(connection)
            expect_error(ConnectionResetError, client.recv, 1)
    return "ECONNRESET told to the client"


def changes_refused():
    logged.append([])
    try:
        to_host(MEGABYTE, "--lose", "in:11")
    finally:
        ((capture, log),) = logged.pop()
    are_refused, said = linux_law.refused_changes(capture, log)
    want(are_refused, said)
    os.remove(log)
    return said.splitlines()[-1]


BAD = re.compile(rb"\(incorrect|bad cksum|bad udp cksum|bad icmp|wrong icmp cksum|\[\|")


def captures_read():
    frames, unaltered = 0, [capture for capture in captures if capture not in altered]
    for capture in unaltered:
        done = subprocess.run(["tcpdump", "-nn", "-vv", "-r", capture], capture_output=True, timeout=120)
        want(done.returncode == 0, done.stderr.decode())
        bad = BAD.search(done.stdout)
        want(not bad, f"{capture}: {bad and done.stdout[bad.start() - 300:bad.end() + 100]}")
        counted = subprocess.run(["tcpdump", "-nn", "--count", "-r", capture], capture_output=True, text=True, timeout=120)
        frames += int((re.search(r"(\d+) packet", counted.stdout) or re.search(r"(\d+)", "0")).group(1))
    return f"{len(unaltered)} captures, {frames:,} frames, no bad checksum"


CHECKS = [
    *[(f"ping, {size:,} octets", ping, (size,), "") for size in (0, 56, 1472)],
    *[(f"UDP echo, {size:,} octets", udp_echo, (size,), "") for size in (1, 1472, 1473, 8000, 65507)],
    ("UDP to a port without a socket", udp_refused, (), ""),
    ("UDP behind a datagram for a silent address", udp_behind_silence, (), ""),
    ("UDP: 460 datagrams each way, every tenth frame twice", every_tenth_frame_twice, (460,), ""),
    ("TCP to a port without a listener", tcp_refused, (), ""),
    ("TCP: Linux opens, Linux closes first", linux_opens_and_closes, (), ""),
    ("TCP: Linux opens, the host closes first", linux_opens_host_closes, (), ""),
    ("TCP: the host opens, the host closes first", host_opens_and_closes, (), ""),
    ("TCP: the host opens, Linux closes first", host_opens_linux_closes, (), ""),
    ("TCP: the host opens past its gateway", host_opens_past_gateway, (), ""),
    ("TCP: the host opens, Linux refuses", linux_refuses, (), ""),
    ("TCP: Linux opens, Linux resets", linux_resets_what_it_opened, (), ""),
    ("TCP: the host opens, Linux resets", linux_resets_what_the_host_opened, (), ""),
    ("TCP: the host opens, the host resets", host_resets_what_it_opened, (), ""),
    ("TCP: the host aborts", host_aborts, (), ""),
    ("TCP: write, turn, write, read, 1 ms late each way, no-delay", no_delay, (), ""),
    ("TCP: a peer that falls silent is found by keep-alive", silent_peer, (), ""),
    ("TCP: a flood of openings from silent addresses", flood_of_openings, (), ""),
    ("TCP: 100,000 openings from silent addresses of the link", flood_of_the_link, (), ""),
    ("TCP: 100,000 openings from beyond the gateway", flood_from_beyond, (), ""),
    ("TCP: 3,000 requests in turn, the host closes first", host_closes_first, (3000,), ""),
    ("TCP: four openings a second", bounded_openings, (), ""),
    ("TCP: 250 clients at once, of a host of 300 entries", clients_at_once, (250, "--entries", 300), ""),
    ("TCP: 2,000 connections at once, of a host of 4,096 entries", open_at_once, (2000, 1000, "--entries", 4096, "--buffer", 4096), ""),
    ("TCP: forged segments with an old acknowledgement, 1 MB to the host", forged_octets, (), ""),
    ("TCP: two hosts that are out of step", out_of_step, (), ""),
    ("TCP: 60 connections at once, by readiness alone", by_readiness, (60, 20000), ""),
    ("what --stats prints", statistics, (), ""),
    ("1 MB to the host", to_host, (MEGABYTE,), ""),
    ("1 MB from the host", from_host, (MEGABYTE,), ""),
    ("1 MB echoed, both ways at once", echo, (MEGABYTE,), ""),
    ("100 kB echoed, every 5th frame twice", echo, (100000, "--repeat", 5), ""),
    ("100 kB echoed, 2,048 octets of buffers each way", echo, (100000, "--buffer", 2048), ""),
    ("100 kB echoed, 5 ms late each way", echo, (100000, "--delay", 5), ""),
    ("1 MB to the host, every 11th frame out lost", to_host, (MEGABYTE, "--lose", "out:11"), ""),
    ("1 MB to the host, one in flight, every 11th frame in lost", to_host_in_turn, (MEGABYTE, "--lose", "in:11"), ""),
    ("1 MB to the host, many in flight, every 11th frame in lost", to_host, (MEGABYTE, "--lose", "in:11"), ""),
    ("10 MB to the host, every 101st frame in lost", to_host, (10 * MEGABYTE, "--lose", "in:101"), ""),
    ("1 MB from the host, every 11th frame in lost", from_host, (MEGABYTE, "--lose", "in:11"), ""),
    ("1 MB from the host, every 11th frame out lost", from_host, (MEGABYTE, "--lose", "out:11"), ""),
    ("1 MB from the host, every 11th frame out lost, --recovery plain", from_host, (MEGABYTE, "--lose", "out:11", "--recovery", "plain"), ""),
    ("100 MB to the host", to_host_counted, (100 * MEGABYTE,), ""),
    ("100 MB from the host", from_host_counted, (100 * MEGABYTE,), ""),
    ("100 MB from Linux to Linux", linux_alone, (100 * MEGABYTE, 0), ""),
    ("100 MB to the host, every 101st frame in lost", to_host, (100 * MEGABYTE, "--lose", "in:101"), ""),
    ("100 MB from the host, every 101st frame out lost", from_host, (100 * MEGABYTE, "--lose", "out:101"), ""),
    ("10 MB from the host, every 101st frame out lost, --recovery plain", from_host, (10 * MEGABYTE, "--lose", "out:101", "--recovery", "plain"), ""),
    ("100 MB to the host, one frame in 100 lost at random", to_host_counted, (100 * MEGABYTE, "--drop", "100"), ""),
    ("100 MB from the host, one frame in 100 lost at random", from_host_counted, (100 * MEGABYTE, "--drop", "100"), ""),
    ("100 MB from Linux to Linux, one frame in 100 lost at random", linux_alone, (100 * MEGABYTE, 100), ""),
    ("1 MB from the host, Linux doesn't read for a minute", from_host_late, (MEGABYTE, 65536), ""),
    ("100 MB from the host, Linux doesn't read for a minute", from_host_late, (100 * MEGABYTE, 0), ""),
    ("100 MB to the host, which doesn't read for a minute", to_host_late, (100 * MEGABYTE, 60), ""),
    ("10 MB to the host, which doesn't read for ten seconds", to_host_late, (10 * MEGABYTE, 10), ""),
    ("1 MB to the host, one in flight, among forged segments", among_forged, (MEGABYTE,), ""),
    ("1 MB to the host, every 3rd frame in lost, each again in another order", among_late_copies, (MEGABYTE, "--lose", "in:3"), ""),
    ("4 echoes of 500 kB, 2 % of frames lost, 2 % damaged, 2 % twice, each up to 5 ms late", over_unruly_network, (4, 500_000, 0.02, 0.005), ""),
    ("the law of one host: a capture or a log that is changed is refused", changes_refused, (), ""),
    ("window scale: what TCP_INFO has", scaled, (), ""),
    ("window scale: --no-scale", not_scaled, (), ""),
    ("window scale: 10 MB to the host, Linux without the option", not_scaled_by_linux, (to_host, 10 * MEGABYTE), ""),
    ("window scale: 10 MB from the host, Linux without the option", not_scaled_by_linux, (from_host, 10 * MEGABYTE), ""),
    ("selective acknowledgements: what TCP_INFO has", selective, (), ""),
    ("selective acknowledgements: 10 MB to the host, every 101st frame in lost", repaired_by_reports, (10 * MEGABYTE, "--lose", "in:101"), ""),
    ("selective acknowledgements: 1 MB to the host, every 11th frame in lost", repaired_by_reports, (MEGABYTE, "--lose", "in:11"), ""),
    ("selective acknowledgements: 1 MB to the host, every 11th frame in lost, Linux without them", not_selective_by_linux, (to_host, MEGABYTE, "--lose", "in:11"), ""),
    *[
        (f"{size} MB {way} the host, 20 ms late each way{', --no-scale' if words else ''}", body, (size * MEGABYTE, "--delay", 20, *words), "")
        for words in ((), ("--no-scale",))
        for size in (10, 100)
        for way, body in (("to", to_host_counted), ("from", from_host_counted))
    ],
    ("a page by curl through --forward", page, (), ""),
    ("--forward to a port without a listener", forward_refused, (), ""),
    ("--forward, the client resets", forward_reset, (), ""),
    ("--forward, the server resets", forward_server_reset, (), ""),
    ("tcpdump reads the captures", captures_read, (), ""),
]

LONG_CHECKS = [
    ("100 MB to the host, every 11th frame in lost", to_host_counted, (100 * MEGABYTE, "--lose", "in:11"), ""),
    ("100 MB from the host, every 11th frame out lost", from_host_counted, (100 * MEGABYTE, "--lose", "out:11"), ""),
]


def captured(name, body, arguments):
    """What a check says, and the captures of its runs with their logs. Of 100 MB, whose log has 200 MB, and whose segments are counted as they cross the
    device, there is no log."""
    if name.startswith("100 MB"):
        return body(*arguments), []
    logged.append([])
    try:
        result = body(*arguments)
    finally:
        pairs = logged.pop()
    return result, pairs


def on_alarm(*_):
    raise Wrong("it takes too long")


def check(name, body, arguments, remark):
    began = time.monotonic()
    signal.alarm(LONGEST if is_long else LONG)
    try:
        result, pairs = captured(name, body, arguments)
        seconds = time.monotonic() - began
        holds, result = True, result + linux_law.held(pairs)
    except (Wrong, linux_law.Broken, OSError, subprocess.SubprocessError) as fault:
        seconds = time.monotonic() - began
        holds, result = False, f"{type(fault).__name__}: {fault}"
    signal.alarm(0)
    rows.append((holds, name, result, seconds, remark))
    print(f"{'ok   ' if holds else 'WRONG'} {seconds:6.1f} s  {name}: {result}", flush=True)


def print_table():
    print("\n| Check | Result | Seconds |\n|---|---|---|")
    for holds, name, result, seconds, remark in rows:
        shown = result if holds else "WRONG: " + " ".join(result.split())
        print(f"| {name}{' ' + remark[:3] if remark else ''} | {shown} | {seconds:.1f} |")
    for remark in sorted({row[4] for row in rows} - {""}):
        print("\n" + remark)


def main():
    signal.signal(signal.SIGALRM, on_alarm)
    signal.signal(signal.SIGTERM, lambda *_: sys.exit(1))
    for name, body, arguments, remark in LONG_CHECKS if is_long else CHECKS:
        if word in name:
            check(name, body, arguments, remark)
    print_table()
    held = sum(row[0] for row in rows)
    print(f"\n{held} of {len(rows)} checks hold")
    return 0 if held == len(rows) and rows else 1


sys.exit(main())
