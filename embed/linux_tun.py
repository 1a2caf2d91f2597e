"""Checks of `tap --tun` for embed/try-examples: a host of the stack on a TUN device, at whose other end is Linux, in the network namespace of the process.
One that doesn't hold raises AssertionError or OSError."""

from __future__ import annotations

import contextlib
import os
import random
import socket
import subprocess
import tempfile
import threading
import time
from typing import Iterator, List

TAP = os.path.join(os.path.dirname(os.path.abspath(__file__)), "out", "tap")
DEVICE, LINUX, OURS, AFAR = "tun2", "10.2.0.1", "10.2.0.2", "10.3.0.1"  # AFAR: an address of Linux's beyond the prefix of the device
PAGE = random.Random(61).randbytes(1_000_000)


def want(holds: bool, what: str) -> None:
    if not holds:
        raise AssertionError(what)


def run(command: str) -> str:
    done = subprocess.run(command.split(), capture_output=True, text=True, timeout=30)
    want(done.returncode == 0, f"{command}: {done.stderr.strip() or done.stdout}")
    return done.stdout


@contextlib.contextmanager
def device() -> Iterator[None]:
    run(f"ip tuntap add dev {DEVICE} mode tun")
    try:
        for command in f"addr add {LINUX}/24 dev {DEVICE}", f"link set {DEVICE} up", f"addr replace {AFAR}/32 dev lo":
            run(f"ip {command}")
        yield
    finally:
        run(f"ip link del {DEVICE}")


@contextlib.contextmanager
def tap(*words: str, status: int = 0) -> Iterator[subprocess.Popen[bytes]]:
    """The program on the device, which is ended with the `with`, and then has this status."""
    pipe = subprocess.PIPE
    with device():
        process = subprocess.Popen([TAP, "--tun", DEVICE, "--addr", OURS + "/24", *words], stdin=pipe, stdout=pipe, stderr=pipe)
        try:
            until = time.monotonic() + 10
            while "LOWER_UP" not in run(f"ip link show {DEVICE}"):
                want(time.monotonic() < until and process.poll() is None, "the program takes the device")
                time.sleep(0.01)
            yield process
            process.terminate()
            _, errors = process.communicate(timeout=10)
            want(process.returncode == status, f"status {status}, and not {process.returncode}: {errors.decode().strip()}")
        finally:
            process.kill()
            process.wait()


def read_all(connection: socket.socket) -> bytes:
    return b"".join(iter(lambda: connection.recv(1 << 16), b""))


def sent_beside(connection: socket.socket) -> threading.Thread:
    """A thread that gives the page, and then the end."""

    def send() -> None:
        connection.sendall(PAGE)
        connection.shutdown(socket.SHUT_WR)

    thread = threading.Thread(target=send)
    thread.start()
    return thread


def echo_tcp(source: str, port: int = 7) -> None:
    with socket.create_connection((OURS, port), 20, (source, 0)) as connection:
        thread = sent_beside(connection)
        came = read_all(connection)
        thread.join()
    want(came == PAGE, f"an echo of {len(PAGE)} octets to {source}, and not {len(came)}")


def echo_udp(source: str) -> None:
    with socket.socket(socket.AF_INET, socket.SOCK_DGRAM) as client:
        client.bind((source, 0))
        client.connect((OURS, 7))
        client.settimeout(10)
        # Of 46 octets a datagram fills an Ethernet frame, of 1,500 it is full; what is longer comes in fragments.
        for size in 0, 1, 17, 18, 19, 1472, 1473, 5000:
            client.send(PAGE[:size])
            want(client.recv(65536) == PAGE[:size], f"an echo of {size} octets to {source}")


def frames_of(path: str) -> List[bytes]:
    """The frames of a capture (docs/FORMATS.md)."""
    with open(path, "rb") as file:
        octets = file.read()
    at = 24
    frames: List[bytes] = []
    while at < len(octets):
        length = int.from_bytes(octets[at + 8:at + 12], "little")
        frames.append(octets[at + 16:at + 16 + length])
        at += 16 + length
    return frames


def linux_tun_words() -> None:
    done = subprocess.run([TAP, "--tap", "tap0", "--tun", DEVICE, "--addr", OURS], capture_output=True, text=True, timeout=10)
    told = "tap: --tap and --tun exclude each other; tap --help tells how\n"
    want((done.returncode, done.stdout, done.stderr) == (2, "", told), f"a refusal, and not {done.returncode} {done.stderr}")


def linux_tun_ping() -> None:
    with tap():
        for size in 0, 56, 1472:
            want(" 20 received" in run(f"ping -q -c 20 -i 0.01 -W 2 -s {size} {OURS}"), f"20 echoes of {size} octets")


def linux_tun_echo() -> None:
    with tap():
        echo_udp(LINUX)
        echo_tcp(LINUX)


def linux_tun_gateway() -> None:
    """Beyond the prefix of the device: with a gateway, which may have any address."""
    with tap("--gateway", "192.0.2.1"):
        run(f"ping -q -c 5 -i 0.01 -W 2 -I {AFAR} {OURS}")
        echo_udp(AFAR)
        echo_tcp(AFAR)
        echo_tcp(LINUX)


def linux_tun_losses() -> None:
    with tap("--lose", "11", "--delay", "3"):
        echo_tcp(LINUX)


def give(process: subprocess.Popen[bytes]) -> None:
    """Gives the page to the standard input of a program, and then the end."""
    assert process.stdin is not None
    process.stdin.write(PAGE)
    process.stdin.close()


def taken(process: subprocess.Popen[bytes]) -> bytes:
    """What a program prints until it ends."""
    assert process.stdout is not None
    return process.stdout.read()


def linux_tun_connect() -> None:
    with socket.create_server(("0.0.0.0", 0)) as server:
        server.settimeout(20)
        with tap("--connect", LINUX, str(server.getsockname()[1])) as process:
            connection, peer = server.accept()
            with connection:
                want(peer[0] == OURS, f"a connection from {OURS}, and not {peer[0]}")
                thread = sent_beside(connection)
                reader = threading.Thread(target=give, args=(process,))
                reader.start()
                printed: List[bytes] = []
                printer = threading.Thread(target=lambda: printed.append(taken(process)))
                printer.start()
                came = read_all(connection)
                for it in thread, reader, printer:
                    it.join(20)
            want((came, printed) == (PAGE, [PAGE]), f"{len(PAGE)} octets each way, and not {len(came)} and {list(map(len, printed))}")
            want(process.wait(10) == 0, "status 0")
            process.stdin = process.stdout = None


def linux_tun_forward() -> None:
    def answer_one() -> None:
        connection, _ = server.accept()
        with connection:
            connection.sendall(read_all(connection))

    with socket.create_server(("0.0.0.0", 0)) as server:
        server.settimeout(20)
        thread = threading.Thread(target=answer_one)
        thread.start()
        with tap("--forward", "80", f"{LINUX}:{server.getsockname()[1]}"):
            echo_tcp(LINUX, 80)
        thread.join(20)


def linux_tun_capture() -> None:
    """The frames are between the host and one hop, without padding; a datagram of IPv6 is passed over."""
    with tempfile.TemporaryDirectory() as folder:
        path = os.path.join(folder, "pcap")
        with tap("--pcap", path, "--mac", "02:00:00:00:00:06"), socket.socket(socket.AF_PACKET, socket.SOCK_DGRAM) as wire:
            wire.sendto(b"\x60" + bytes(39), (DEVICE, 0x86DD))
            run(f"ping -q -c 3 -i 0.01 -W 2 -s 4 {OURS}")
        frames = frames_of(path)
    ours, hop = b"\2\0\0\0\0\6", b"\2\0\0\0\0\7"
    heads = [frame[:14] for frame in frames if frame[23] == 1]
    want(heads == [ours + hop + b"\x08\0", hop + ours + b"\x08\0"] * 3, f"three requests and replies, and not {heads}")
    want(all(frame[14] >> 4 == 4 and len(frame) == 14 + int.from_bytes(frame[16:18], "big") for frame in frames), "datagrams of IPv4 without padding")


CHECKS = (linux_tun_words, linux_tun_ping, linux_tun_echo, linux_tun_gateway, linux_tun_losses, linux_tun_connect, linux_tun_forward, linux_tun_capture)
