"""A network in one process: hosts of this stack, links that lose, repeat and reorder, switches, routers, captures, and tasks that talk over sockets.

    with Network(seed=1) as net:
        router = net.router()
        client, server = net.host("10.0.1.1/24", gateway="10.0.1.254"), net.host("10.0.2.1/24", gateway="10.0.2.254")
        net.link(client, router.port("10.0.1.254/24"), delay=5, loss=0.02)
        net.link(server, router.port("10.0.2.254/24"), delay=5, rate=10_000_000)

        async def serve():
            listener = server.listen(7)
            socket, _peer = await listener.accept()
            await socket.sendall(await socket.recv(100))
            socket.close()

        async def call():
            socket = await client.connect(("10.0.2.1", 7))
            await socket.sendall(b"hello")
            return await socket.recv(100)

        net.task(serve())
        assert net.run(until=net.task(call())) == b"hello"

**Time** is a number: `now` counts whole milliseconds from 0, as the hosts do, and `clock` the nanoseconds that order what happens within one. It moves
to the next thing that happens. Delays and timeouts are milliseconds, and may be fractions, but those of a BlockingSocket, seconds as in Python.

**The seed** decides what links do to frames, the initial sequence numbers and the dynamic ports. The same program with the same seed sends the same
frames, to the octet, unless it draws numbers of its own: TLS does, in OpenSSL, and a server that tells the date.

**Tasks** take turns; a turn ends where a task waits, and then what its calls gave goes out together. What may wait is a Call: an `async` function awaits
it, a generator has `yield from` it. Code that blocks, as that of `http.client`, runs in `net.blocking(function)`: a thread, but hand in hand with the
network, so that one of them runs at a time and all stays in order. It has BlockingSockets, which look like Python's own. Outside of tasks a
BlockingSocket's call runs the network until it is done.

    def fetch():
        connection = http.client.HTTPConnection("10.0.2.1")
        connection.sock = client.create_connection(("10.0.2.1", 80))
        connection.request("GET", "/")
        return connection.getresponse().read()

    page = net.run(until=net.blocking(fetch))

(A subclass whose `connect` sets `self.sock` so opens connections by itself, as `http.client` does where the server has closed one.)

**TLS** runs over a socket by `ssl.MemoryBIO` and `ssl.SSLObject`, as `SSLContext.wrap_socket` takes sockets of the system only: in tasks
`await Tls.over(socket, context, server_hostname=...)`, and of a BlockingSocket `socket.tls(context, server_hostname=...)`, which `http.client` takes like
any other.

A refused call raises OSError as those of `host` do, and TimeoutError where a timeout ends. What a task raises comes out of `run`.
"""

from __future__ import annotations

import contextlib
import errno
import heapq
import ipaddress
import random
from typing import Any, Callable, Dict, Generator, Iterator, List, Mapping, Optional, Tuple, TypeVar, Union, overload

from host import Endpoint, Host, Kind, Recovery
from testbed_frames import Capture, Packet, decode
from testbed_nodes import Link, Node, Port, Probe, Router, Switch
from testbed_sockets import BlockingListener, BlockingSocket, Datagrams, Listener, Socket, Tls
from testbed_tasks import MILLISECOND, Call, Crowd, Steps, Task, Thread, Wait
from testbed_trace import Trace

__all__ = [
    "BlockingListener",
    "BlockingSocket",
    "Call",
    "Capture",
    "Datagrams",
    "Link",
    "Listener",
    "Network",
    "Port",
    "Probe",
    "Router",
    "Socket",
    "Station",
    "Switch",
    "Task",
    "Tls",
    "Trace",
    "Wait",
    "decode",
]

T = TypeVar("T")

# What docs/EMBEDDING.md recommends to a host that meets losses.
REAL: Dict[str, Any] = {"recovery": Recovery.SELECTIVE, "first_segments": 10, "least_timeout": 200, "first_threshold": 1 << 30}
# The dynamic ports (RFC 6335).
FIRST_PORT, PORTS = 49152, 16384


class Network:
    """Hosts, links, switches and routers, the clock that they share, and the tasks that use them. At the end of a `with`, or by `close`, its tasks end,
    its hosts are freed and its captures are whole."""

    def __init__(self, seed: Union[int, str] = 0) -> None:
        self.dice = random.Random(seed)
        self.clock = 0
        self.current: Optional[Task[Any]] = None
        self._events: List[Tuple[int, int, Callable[[], None]]] = []
        self._happened = self._macs = 0
        self._touched: Dict[Station, None] = {}
        self._stations: List[Station] = []
        self._tasks: List[Task[Any]] = []
        self._captures: List[Tuple[Capture, Tuple[Link, ...]]] = []

    @property
    def now(self) -> int:
        """The moment, in whole milliseconds."""
        return self.clock // MILLISECOND

    def __enter__(self) -> Network:
        return self

    def __exit__(self, *_raised: object) -> None:
        self.close()

    def close(self) -> None:
        """Ends all tasks where they wait, frees the hosts and ends the captures; again: nothing."""
        with contextlib.ExitStack() as ends:  # from the last on, each of them, whatever one raises
            for capture, _links in self._captures:
                ends.callback(capture.close)
            for station in self._stations:
                ends.callback(station.host.free)
            for task in self._tasks:
                ends.callback(self._close_task, task)

    # What the network is made of.

    def host(self, addr: str, gateway: Optional[str] = None, routes: Optional[Mapping[str, Optional[str]]] = None, **options: Any) -> Station:
        """A host at `addr` (`"10.0.1.1/24"`; without a length it is 24), with a route to its own network, one to all else by `gateway`, and others as
        `routes` has them. The options are those of Host; losses are repaired as on a real network, unless they say otherwise."""
        own = ipaddress.IPv4Interface(addr if "/" in addr else f"{addr}/24")
        known: Dict[str, Optional[str]] = {str(own.network): None}
        if gateway is not None:
            known["0.0.0.0/0"] = gateway
        known.update(routes or {})
        host = Host(self.new_mac(), str(own.ip), known, **{**REAL, **options})
        station = Station(self, host, str(own.ip), random.Random(self.dice.getrandbits(64)))
        self._stations.append(station)
        return station

    def switch(self) -> Switch:
        """A switch, which learns on which of its ports a MAC is. Each link to it takes a port of its own."""
        return Switch()

    def router(self) -> Router:
        """A router: each link to it is to a port that its `port` makes."""
        return Router(self)

    def probe(self) -> Probe:
        """An end of a link without a host: it keeps the frames that arrive, and sends those that it is given."""
        return Probe(self)

    def link(
        self,
        one: Union[Node, Port],
        other: Union[Node, Port],
        delay: float = 0,
        loss: float = 0,
        repeat: float = 0,
        reorder: float = 0,
        rate: Optional[float] = None,
        queue: Optional[float] = None,
    ) -> Link:
        """Joins two nodes, or ports of them. `delay` is in milliseconds. `loss`, `repeat` and `reorder` are shares, 0 to 1, of the frames that are lost,
        come twice, and come late, so that later ones may pass them: by up to the delay once more, or up to a millisecond if that is more. `rate` is in
        bits a second, each way; a frame that would wait for it longer than `queue` milliseconds is lost. ValueError: a number is out of range, or a
        port has a link."""
        return Link(self, one, other, delay, loss, repeat, reorder, rate, queue)

    def pcap(self, path: str, *links: Link) -> Capture:
        """Begins a capture of the frames that enter these links, or any link, in the format of tcpdump. It is whole when the network or it is closed."""
        capture = Capture(path)
        self._captures.append((capture, links))
        return capture

    # Time and tasks.

    def at(self, clock: int, act: Callable[[], None]) -> None:
        """Has something happen at a moment, in nanoseconds; what happens at one moment does in the order of these calls."""
        self._happened += 1
        heapq.heappush(self._events, (max(clock, self.clock), self._happened, act))

    def task(self, steps: Union[Steps[T], Call[T]]) -> Task[T]:
        """A task, which begins at this moment: a coroutine of an `async` function, a generator, or a Call."""
        return self._begin(Task(self, iter(steps) if isinstance(steps, Call) else steps))

    def blocking(self, work: Callable[..., T], *arguments: Any) -> Task[T]:
        """A task of code that blocks, with BlockingSockets: it has a thread, in which `work` is called at this moment."""
        thread = Thread(lambda: work(*arguments))
        return self._begin(Task(self, thread.steps(), thread))

    def sleep(self, milliseconds: float) -> Call[None]:
        """Waits so long."""
        return Call(self._sleep(milliseconds))

    def wait(self, call: Call[T]) -> T:
        """Blocks until a Call is done: in a blocking task, or outside of tasks, where the network runs meanwhile."""
        if self.current is None:
            return self.run(until=self.task(call))
        thread = self.current.thread
        if thread is None:
            raise RuntimeError("only a blocking task may block: others await a call, or yield from it")
        steps = iter(call)
        while True:
            try:
                wait = next(steps)
            except StopIteration as end:
                result: T = end.value
                return result
            thread.wait(wait)

    @overload
    def run(self, until: Task[T]) -> T: ...

    @overload
    def run(self, until: Optional[float] = None) -> None: ...

    def run(self, until: Union[None, float, Task[Any]] = None) -> Any:
        """Lets time pass: to the moment `until`, in milliseconds; until that task is done, which tells what it returned; or until nothing is left to
        happen. RuntimeError where nothing is left to happen and the task waits."""
        if self.current is not None:
            raise RuntimeError("a task can't run its network")
        task = until if isinstance(until, Task) else None
        last = None if until is None or isinstance(until, Task) else round(until * MILLISECOND)
        self._end_turns()
        while self._events and not (task and task.done) and (last is None or self._events[0][0] <= last):
            self.clock, _, act = heapq.heappop(self._events)
            act()
            self._end_turns()
        if task is not None and not task.done:
            raise RuntimeError("nothing is left to happen, and the task still waits")
        self.clock = max(self.clock, last or 0)
        return None if task is None else task.result()

    # For the nodes.

    @contextlib.contextmanager
    def turn_of(self, task: Task[Any]) -> Iterator[None]:
        """Has it be a task's turn, in a `with`."""
        self.current = task
        try:
            yield
        finally:
            self.current = None

    def touch(self, station: Station) -> None:
        """A call was made of a host: at the end of the turn its frames go out."""
        self._touched[station] = None

    def seen(self, link: Link, frame: bytes) -> None:
        """A frame enters a link."""
        for capture, links in self._captures:
            if not links or link in links:
                capture.add(self.clock, frame)

    def new_mac(self) -> bytes:
        """A MAC that no other node has."""
        self._macs += 1
        return b"\2" + self._macs.to_bytes(5, "big")

    def _close_task(self, task: Task[Any]) -> None:
        with self.turn_of(task):
            task.close()

    def _begin(self, task: Task[T]) -> Task[T]:
        self._tasks = [it for it in self._tasks if not it.done] + [task]
        return task

    def _sleep(self, milliseconds: float) -> Generator[Wait, None, None]:
        yield Wait(None, lambda: False, self.clock + round(milliseconds * MILLISECOND))

    def _end_turns(self) -> None:
        while self._touched:
            station = next(iter(self._touched))
            del self._touched[station]
            station.end_turn()


class Station:
    """A host of the network: `connect`, `listen` and `datagrams` for tasks, `create_connection` and `create_server` for code that blocks. `host` is the
    Host itself; `turn` gives it with its clock set, for any other call."""

    def __init__(self, network: Network, host: Host, addr: str, dice: random.Random) -> None:
        self.network, self.host, self.addr, self.crowd = network, host, addr, Crowd()
        self._dice, self._port = dice, Port(self.deliver)
        self._armed: Optional[int] = None
        self._traces: List[Trace] = []

    def port(self) -> Port:
        """Its one port, for a link."""
        return self._port

    def turn(self) -> Host:
        """The host, ticked, to make a call of; what that gives goes out at the end of the turn."""
        self.host.tick(self.network.now)
        self.network.touch(self)
        return self.host

    def deliver(self, frame: Packet) -> None:
        """A frame arrives: from the link, or one made by hand, or a packet of scapy."""
        self.turn().deliver(self.network.now, self._dice.getrandbits(32), bytes(frame))

    def connect(self, peer: Endpoint, timeout: Optional[float] = None) -> Call[Socket]:
        """Opens a connection, from a port of the seed. ConnectionRefusedError and TimeoutError, as the host tells, or after `timeout` milliseconds."""
        return Call(self._connect(peer, timeout))

    def listen(self, port: int, backlog: int = 8) -> Listener:
        """A Listener at a port."""
        host = self.turn()
        listener = Listener(self, host.socket())
        host.bind(listener.id, ("0.0.0.0", port))
        host.listen(listener.id, backlog)
        return listener

    def datagrams(self, port: int = 0) -> Datagrams:
        """A UDP socket at a port, or at one of the seed."""
        socket = Datagrams(self, self.turn().socket(Kind.UDP))
        self._bind(socket.id, port)
        return socket

    def create_connection(self, address: Endpoint, timeout: Optional[float] = None, *_source: Any) -> BlockingSocket:
        """What `socket.create_connection` is to the system: `timeout` is in seconds."""
        socket = self.network.wait(self.connect(address, None if timeout is None else timeout * 1000))
        return BlockingSocket(socket)

    def create_server(self, address: Tuple[str, int], backlog: int = 8) -> BlockingListener:
        """What `socket.create_server` is to the system; the address counts for nothing but its port."""
        return BlockingListener(self.listen(address[1], backlog))

    def trace(self, id: int) -> Trace:
        """Begins to write down how a connection stands, by the id of its socket."""
        trace = Trace(id)
        self._traces.append(trace)
        trace.look(self.network.now, self.turn())
        return trace

    def end_turn(self) -> None:
        """What is due goes out, a timer is set, and tasks go on whose sockets have become ready."""
        now = self.network.now
        frame = self.host.next_frame(now)
        while frame is not None:
            self._port.send(frame)
            frame = self.host.next_frame(now)
        for trace in self._traces:
            trace.look(now, self.host)
        self._arm(self.host.next_deadline())
        self.crowd.tell()

    def _arm(self, deadline: Optional[int]) -> None:
        if deadline is not None and deadline != self._armed:
            self.network.at(deadline * MILLISECOND, lambda: self._wake(deadline))
        self._armed = deadline

    def _wake(self, deadline: Optional[int]) -> None:
        if deadline == self._armed:
            self._armed = None
            self.turn()

    def _bind(self, id: int, port: int) -> None:
        """Binds to a port, or to a free one of the dynamic ports by the dice (RFC 6056)."""
        while True:
            try:
                self.turn().bind(id, ("0.0.0.0", port or FIRST_PORT + self._dice.randrange(PORTS)))
                return
            except OSError as error:
                if port or error.errno != errno.EADDRINUSE:
                    raise

    def _connect(self, peer: Endpoint, timeout: Optional[float]) -> Generator[Wait, None, Socket]:
        socket = Socket(self, self.turn().socket(), timeout)
        try:
            self._bind(socket.id, 0)
            self.turn().connect(self.network.now, self._dice.getrandbits(32), socket.id, peer)
            yield from socket.opened()
        except OSError:
            socket.close()
            raise
        return socket
