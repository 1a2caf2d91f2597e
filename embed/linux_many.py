"""Many TCP connections of Linux's to one port of a host, all open at the same time."""

import contextlib
import errno
import random
import resource
import socket
import time
from typing import List, NamedTuple, Tuple

ESTABLISHED = 1  # the state with which TCP_INFO begins
PATIENCE = 100  # seconds that a call waits at most
OTHERS = 100  # descriptors of this process beside those of connections


class Course(NamedTuple):
    """How many connections were open at one moment, behind all echoes; how many echoes came back equal; how many streams came to their end; and how many
    seconds the openings took, the echoes and the ends."""

    open: int
    equal: int
    ended: int
    seconds: Tuple[float, float, float]


def allow_descriptors(count: int) -> None:
    """This process may have so many from now on. Where its hard limit is less only root may raise that."""
    soft, hard = resource.getrlimit(resource.RLIMIT_NOFILE)
    if soft != resource.RLIM_INFINITY and soft < count:
        raised = hard if hard == resource.RLIM_INFINITY else max(hard, count)
        try:
            resource.setrlimit(resource.RLIMIT_NOFILE, (count, raised))
        except ValueError:
            raise OSError(errno.EMFILE, f"this process may not have {count} descriptors") from None


def read(client: socket.socket, size: int) -> bytes:
    """So many octets, or fewer where the stream ends before."""
    came = b""
    while len(came) < size and (part := client.recv(size - len(came))):
        came += part
    return came


def is_open(client: socket.socket) -> bool:
    return client.getsockopt(socket.IPPROTO_TCP, socket.TCP_INFO, 1)[0] == ESTABLISHED


def echoes(end: Tuple[str, int], count: int, size: int) -> Course:
    """Opens so many connections, has so many octets of each echoed, others of each, and closes all."""
    data = [random.Random(number).randbytes(size) for number in range(count)]
    allow_descriptors(count + OTHERS)
    moments = [time.monotonic()]
    with contextlib.ExitStack() as left:
        clients: List[socket.socket] = [left.enter_context(socket.create_connection(end, PATIENCE)) for _ in data]
        moments.append(time.monotonic())
        for client, octets in zip(clients, data):
            client.sendall(octets)
        equal = sum(read(client, size) == octets for client, octets in zip(clients, data))
        moments.append(time.monotonic())
        open_ones = sum(map(is_open, clients))
        for client in clients:
            client.shutdown(socket.SHUT_WR)
        ended = sum(client.recv(1) == b"" for client in clients)
        moments.append(time.monotonic())
    opening, echoing, ending = (late - early for early, late in zip(moments, moments[1:]))
    return Course(open_ones, equal, ended, (opening, echoing, ending))
