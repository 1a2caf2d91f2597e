"""Linux beside itself: two network namespaces, each with a TAP device, and a pump between the two that loses frames at random. So the
seconds and the frames resent of Linux's own TCP can stand beside those of the stack, under the same losses.
"""

import contextlib
import ctypes
import fcntl
import os
import random
import select
import signal
import socket
import struct
import subprocess

NEAR = "10.3.0.1"  # the sender, in the namespace that this runs in
FAR = "10.3.0.2"  # the receiver, in one of its own
PORT = 5000

TUNSETIFF = 0x400454CA
IFF_TAP, IFF_NO_PI = 2, 0x1000
CLONE_NEWNET = 0x40000000
PR_SET_PDEATHSIG = 1


class Segments:
    """What frames in one direction say of TCP: how many carry octets, how many of these only such as went before, and the numbers with which
    they begin.
    """

    def __init__(self):
        self.filled = self.resent = 0
        self.numbers = set()
        self.end = None

    def add(self, frame):
        """Counts a frame. Whether it carries octets.

        Octets 12 and 13 are the frame's type, 23 the protocol, 16 and 17 the datagram's length (RFC 894, RFC 791 section 3.1).
        """
        if len(frame) < 54 or frame[12:14] != b"\x08\x00" or frame[23] != 6:
            return False
        tcp = 14 + 4 * (frame[14] & 15)
        octets = int.from_bytes(frame[16:18], "big") + 14 - tcp - 4 * (frame[tcp + 12] >> 4)
        if octets == 0:
            return False
        number = int.from_bytes(frame[tcp + 4:tcp + 8], "big")
        end = (number + octets) % 2**32
        self.filled += 1
        self.numbers.add(number)
        if self.end is None or 0 < (end - self.end) % 2**32 < 2**31:
            self.end = end
        else:
            self.resent += 1
        return True


def enter_own_space():
    """This process goes on in a network namespace of its own."""
    if ctypes.CDLL(None, use_errno=True).unshare(CLONE_NEWNET) != 0:
        raise OSError(ctypes.get_errno(), "unshare")


def open_tap(name, address):
    """A device of the namespace that this process is in, with an address and a carrier."""
    device = os.open("/dev/net/tun", os.O_RDWR)
    fcntl.ioctl(device, TUNSETIFF, struct.pack("16sH22x", name.encode(), IFF_TAP | IFF_NO_PI))
    # A kernel without IPv6 has no such file.
    with contextlib.suppress(FileNotFoundError), open(f"/proc/sys/net/ipv6/conf/{name}/disable_ipv6", "w") as file:
        file.write("1")
    subprocess.run(["ip", "addr", "add", address + "/24", "dev", name], check=True)
    subprocess.run(["ip", "link", "set", name, "up"], check=True)
    return device


def pump(near, far, one_in, told):
    """Carries frames both ways until the other processes end, and then tells of the sender's segments."""
    chance = random.Random(one_in)
    sent = Segments()
    signal.signal(signal.SIGTERM, lambda *_: (os.write(told, struct.pack("QQ", sent.filled, sent.resent)), os._exit(0)))
    while True:
        for device in select.select([near, far], [], [])[0]:
            frame = os.read(device, 2048)
            if device == near:
                sent.add(frame)
            if one_in == 0 or chance.randrange(one_in) != 0:
                os.write(far if device == near else near, frame)


def receive(ends, size):
    """In a namespace of its own: hands its device on, takes one connection and reads it to its end."""
    enter_own_space()
    device = open_tap("far", FAR)
    wanted = octets(size)
    with socket.create_server((FAR, PORT)) as server:
        socket.send_fds(ends, [b"here"], [device])
        connection, _ = server.accept()
        came = bytearray()
        while part := connection.recv(1 << 16):
            came += part
        ends.send(b"same" if came == wanted else b"else")


def octets(count):
    return random.Random(count).randbytes(count)


def child(body, *arguments):
    """A process that does this and ends."""
    process = os.fork()
    if process == 0:
        status = 1
        try:
            # It ends with its parent, also where that is killed.
            ctypes.CDLL(None).prctl(PR_SET_PDEATHSIG, signal.SIGKILL)
            signal.alarm(0)
            body(*arguments)
            status = 0
        finally:
            os._exit(status)
    return process


def transfer(size, one_in):
    """Sends so many octets from one namespace to the other, and loses one of so many frames of both directions (none where it is 0). Whether they came
    equal, how many segments with octets went out, and how many of them again.
    """
    data = octets(size)
    ours, theirs = socket.socketpair(socket.AF_UNIX, socket.SOCK_SEQPACKET)
    ours.settimeout(250)
    near = open_tap("near", NEAR)
    receiver = child(receive, theirs, size)
    pumping = None
    try:
        _, (far,), *_ = socket.recv_fds(ours, 4, 1)
        told, tell = os.pipe()
        pumping = child(pump, near, far, one_in, tell)
        with socket.create_connection((FAR, PORT), timeout=20) as connection:
            connection.settimeout(250)
            connection.sendall(data)
            connection.shutdown(socket.SHUT_WR)
            equal = ours.recv(4) == b"same"
        os.kill(pumping, signal.SIGTERM)
        filled, resent = struct.unpack("QQ", os.read(told, 16))
        return equal, filled, resent
    finally:
        for process in (receiver, pumping):
            if process is not None:
                try:
                    os.kill(process, signal.SIGKILL)
                except ProcessLookupError:
                    pass
                os.waitpid(process, 0)
        os.close(near)
