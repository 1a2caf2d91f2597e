"""Refuses the module `host` each growth of memory in turn: it raises OSError with ENOMEM, and once the call is made again all goes on as it does without
the refusal. The library that HOST_LIBRARY names is one with the heap of refuse.c. try-memory runs this."""

import ctypes
import errno
import os
import sys

sys.path.insert(0, os.path.dirname(os.path.dirname(os.path.abspath(__file__))))
from host import Drop, Host, Kind, State

heap = ctypes.CDLL(os.environ["HOST_LIBRARY"])
heap.memory_refuse.argtypes = [ctypes.c_uint64, ctypes.c_uint64]
for name in ("memory_asked", "memory_refused", "memory_held"):
    getattr(heap, name).restype = ctypes.c_uint64

ROUTES = {"10.0.0.0/24": None, "0.0.0.0/0": "10.0.0.254"}


class Wrong(Exception):
    """What is otherwise than without the refusal."""


def want(holds, what):
    if not holds:
        raise Wrong(what)


def again(call, *arguments):
    """Makes a call, and once more where it is refused memory."""
    refused = heap.memory_refused()
    try:
        answer = call(*arguments)
    except OSError as error:
        want(error.errno == errno.ENOMEM and heap.memory_refused() == refused + 1, f"{call.__name__}: {error}")
        return call(*arguments)
    if answer is Drop.NO_ROOM:
        want(heap.memory_refused() == refused + 1, "a frame is dropped")
        return call(*arguments)
    want(heap.memory_refused() == refused, f"{call.__name__} is refused memory and says nothing")
    return answer


def carry(hosts, frames):
    """Moves all frames of both hosts to the other, until both are silent."""
    moved = True
    while moved:
        moved = False
        for source, target in (hosts, hosts[::-1]):
            while frame := source.next_frame(1000):
                frames.append(frame)
                want(again(target.deliver, 1000, 7, frame) is None, "a frame is dropped")
                moved = True


def play(scale):
    """A connection with octets both ways, and a datagram in fragments. Returns the frames."""
    frames = []
    made = [again(Host, f"02:00:00:00:00:0{last}", f"10.0.0.{last}", ROUTES, scale) for last in (1, 2)]
    with made[0] as a, made[1] as b:
        listener, caller = again(b.socket), again(a.socket)
        b.bind(listener, ("0.0.0.0", 80))
        b.listen(listener)
        a.connect(1000, 100, caller, ("10.0.0.2", 80))
        carry(made, frames)
        called, peer = b.accept(listener)
        want((listener, caller, called, peer) == (1, 1, 2, ("10.0.0.1", 49152)), "the ids are others")
        for source, target, text in ((a, b, b"hello"), (b, a, b"welcome")):
            ends = (caller, called) if source is a else (called, caller)
            want(source.send(ends[0], text) == len(text), "not all octets are taken")
            carry(made, frames)
            want(target.recv(ends[1], 100) == text, "other octets are read")
        want(a.state(caller) is State.ESTABLISHED, "another state")
        server, client = again(b.socket, Kind.UDP), again(a.socket, Kind.UDP)
        b.bind(server, ("10.0.0.2", 5001))
        a.sendto(client, ("10.0.0.2", 5001), bytes(3000))
        carry(made, frames)
        want(b.recvfrom(server) == (bytes(3000), ("10.0.0.1", a.sockname(client)[1])), "other octets are read")
    want(heap.memory_held() == 0, "memory is held on")
    return frames


def play_each(scale):
    """Plays with each growth refused: how many those were."""
    heap.memory_refuse(0, 0)
    frames, asked = play(scale), heap.memory_asked()
    for number in range(1, asked + 1):
        heap.memory_refuse(number, number)
        try:
            want(play(scale) == frames and heap.memory_refused() == 1, "other frames go out")
        except (Wrong, OSError) as why:
            raise Wrong(f"growth {number} refused: {why}") from why
    return asked


def main():
    try:
        asked = [play_each(scale) for scale in (True, False)]
    except Wrong as why:
        print(f"module: {why}", file=sys.stderr)
        return 1
    print(f"module: {asked[0]} growths with the window scale option, {asked[1]} without, each refused once")
    return 0


if __name__ == "__main__":
    sys.exit(main())
