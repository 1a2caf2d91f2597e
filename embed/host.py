"""An IPv4 host with TCP and UDP sockets, by ctypes over the C library of this folder (`host.h` has each call at length).

Frames, socket calls and moments go in; frames, answers and deadlines come out. The library opens no device, reads no clock and waits for
nothing: each call returns at once, and a test can hold the network and the clock in its hand.

Addresses are text (`"10.0.0.1"`) or numbers with the first octet highest, and come back as text. An endpoint is a tuple of address and port,
as in Python's own `socket`. Moments are milliseconds, frames and data are `bytes`. A refused call changes nothing, and raises OSError with the
system's number, in the class that Python has for it: BlockingIOError for EAGAIN, ConnectionRefusedError, ConnectionResetError, BrokenPipeError.
`try_recv` and its like answer None in place of BlockingIOError, and are faster.

Use a host on one thread. `free` it, or leave that to `with` or to Python.

The library is `libhostc.so`: the file that the variable HOST_LIBRARY of the environment names, or the one beside this file, in its folder `out`
or in `lib` of Python's prefix, or the one that the system's loader finds. `embed/build` makes it of `libhostc.a`.
"""

from __future__ import annotations

import ctypes
import dataclasses
import enum
import errno
import ipaddress
import os
import sys
from typing import Any, Dict, List, Mapping, NoReturn, Optional, Tuple, TypeVar, Union

__all__ = ["Counters", "Drop", "Host", "Info", "Kind", "Ready", "Recovery", "State"]

VERSION = "0.3.0"
FRAME_SIZE = 1514
DATAGRAM_SIZE = 65507

T = TypeVar("T")
Address = Union[str, int]
Endpoint = Tuple[str, int]
Octets = Union[bytes, bytearray, memoryview]


class Kind(enum.IntEnum):
    """What a socket is of."""

    TCP = 1
    UDP = 2


class Recovery(enum.IntEnum):
    """How losses are repaired: PLAIN is RFC 5681 section 3.2 alone, NEW_RENO that with RFC 6582, 3042 and 3465. SELECTIVE is as NEW_RENO where the
    peer takes no selective acknowledgements; else acknowledgements report what is kept ahead of a gap (RFC 2018), what the peer reports rules
    what goes out again (RFC 6675), and after two silent round trips the last segment does (RFC 8985 section 7)."""

    PLAIN = 0
    NEW_RENO = 1
    SELECTIVE = 2


class Ready(enum.IntFlag):
    """What a socket is ready for: each foretells a call, as things stand."""

    ACCEPT = 1
    READ = 2
    WRITE = 4
    ENDED = 8
    FAILED = 16
    OPENING = 32


State = enum.Enum(
    "State",
    "CLOSED LISTEN SYN_SENT SYN_RECEIVED ESTABLISHED FIN_WAIT_1 FIN_WAIT_2 CLOSE_WAIT CLOSING LAST_ACK TIME_WAIT DATAGRAM",
    start=0,
)
State.__doc__ = "The state of a socket: those of RFC 9293 section 3.3.2, and DATAGRAM of every UDP socket."

Drop = enum.Enum(
    "Drop", "SHORT OTHER_MAC OTHER_TYPE IP_HEADER IP_SUM OTHER_ADDRESS UPPER_HEADER UPPER_SUM NO_ROOM FRAGMENT NO_HOST"
)
Drop.__doc__ = "Why a frame was dropped, by the numbers of docs/CODES.md."


@dataclasses.dataclass(frozen=True)
class Info:
    """A connection as it stands: `host.h` has each field at length. Lengths are octets, moments and times milliseconds; None where there is none."""

    state: State
    in_flight: int
    held: int
    unsent: int
    readable: int
    kept: int
    peer_window: int
    own_window: int
    smss: int
    cwnd: int
    ssthresh: int
    srtt: float | None
    rttvar: float | None
    rto: int
    expiries: int
    resent: int
    error: int | None
    retransmission: int | None
    probe: int | None
    delayed_ack: int | None
    override: int | None
    ends: int | None


@dataclasses.dataclass(frozen=True)
class Counters:
    """What was counted of a host since it was made: `host.h` has each field at length. The frames that were dropped stand by their cause, from
    `short_frame` to `fragment`; those for want of room, Drop.NO_ROOM, by what there was none of, from `backlog` to `route`. Then stands what `tick`
    gave up for want of a hop."""

    frames_in: int
    octets_in: int
    frames_out: int
    octets_out: int
    short_frame: int
    other_mac: int
    other_type: int
    ip_header: int
    ip_sum: int
    other_address: int
    upper_header: int
    upper_sum: int
    fragment: int
    backlog: int
    table: int
    memory: int
    replies: int
    queue: int
    reassembly: int
    route: int
    replies_given_up: int
    resets_given_up: int
    datagrams_given_up: int


# The system's number of each refusal, from number 1 on.
_ERRNO = [
    getattr(errno, name)
    for name in (
        "EBADF EINVAL EADDRINUSE EADDRNOTAVAIL EISCONN ENOTCONN EALREADY EAGAIN ECONNREFUSED ECONNRESET ETIMEDOUT EPIPE EMSGSIZE "
        "ENETUNREACH EMFILE ENOMEM EOPNOTSUPP EDESTADDRREQ"
    ).split()
]
_EAGAIN = -8
# The most octets that one call reads.
_MOST = 1 << 20


class _Handle(ctypes.Structure):
    _fields_ = [("at", ctypes.c_void_p)]


class _Endpoint(ctypes.Structure):
    _fields_ = [("addr", ctypes.c_uint32), ("port", ctypes.c_uint16)]

    def read(self) -> Endpoint:
        return str(ipaddress.IPv4Address(self.addr)), self.port


class _Route(ctypes.Structure):
    _fields_ = [("prefix", ctypes.c_uint32), ("gateway", ctypes.c_uint32), ("length", ctypes.c_uint8)]


class _Config(ctypes.Structure):
    _fields_ = [
        ("size", ctypes.c_size_t),
        ("routes", ctypes.POINTER(_Route)),
        ("count", ctypes.c_size_t),
        ("addr", ctypes.c_uint32),
        ("mac", ctypes.c_uint8 * 6),
        ("no_window_scale", ctypes.c_uint8),
        ("minshall", ctypes.c_uint8),
        ("recovery", ctypes.c_uint8),
        ("first_segments", ctypes.c_uint8),
        ("least_timeout", ctypes.c_uint16),
        ("first_threshold", ctypes.c_uint32),
        ("guards", ctypes.c_uint8),
        ("replies", ctypes.c_uint8),
        ("no_reassembly", ctypes.c_uint8),
        ("reassemblies", ctypes.c_uint8),
        ("entries", ctypes.c_uint32),
        ("buffer", ctypes.c_uint32),
        ("neighbours", ctypes.c_uint16),
        ("reassembly_octets", ctypes.c_uint16),
        ("zero", ctypes.c_uint8 * 4),
    ]


_HANDLE = ctypes.POINTER(_Handle)
_ENDPOINT = ctypes.POINTER(_Endpoint)
_U16, _U32, _U64, _SIZE, _OCTETS = ctypes.c_uint16, ctypes.c_uint32, ctypes.c_uint64, ctypes.c_size_t, ctypes.c_char_p

# The arguments of each call behind the handle. Each answers an int64_t, but the two of _SILENT, which answer nothing.
_CALLS: Dict[str, List[Any]] = {
    "host_new_from": [_OCTETS, _SIZE, ctypes.POINTER(_Route), _SIZE],
    "host_free": [],
    "host_socket": [_U32],
    "host_bind": [_U64, _U32, _U16],
    "host_listen": [_U64, _SIZE],
    "host_accept": [_U64, _ENDPOINT],
    "host_connect": [_U64, _U32, _U64, _U32, _U16],
    "host_send": [_U64, _OCTETS, _SIZE],
    "host_recv": [_U64, _OCTETS, _SIZE],
    "host_shutdown_write": [_U64],
    "host_set_nodelay": [_U64, _U32],
    "host_set_keepalive": [_U64, _U64],
    "host_close": [_U64],
    "host_abort": [_U64],
    "host_sendto": [_U64, _U32, _U16, _OCTETS, _SIZE],
    "host_recvfrom": [_U64, _OCTETS, _SIZE, _ENDPOINT],
    "host_state": [_U64],
    "host_sockname": [_U64, _ENDPOINT],
    "host_peername": [_U64, _ENDPOINT],
    "host_info_into": [_U64, ctypes.POINTER(ctypes.c_int64), _SIZE],
    "host_counters_into": [ctypes.POINTER(ctypes.c_int64), _SIZE],
    "host_would_connect": [_U64, _U32, _U16, _ENDPOINT],
    "host_would_open": [_OCTETS, _SIZE, _ENDPOINT],
    "host_ready": [_U64],
    "host_next_ready": [_U64, _U32, ctypes.POINTER(_U32)],
    "host_recv_len": [_U64],
    "host_send_room": [_U64],
    "host_concerns": [_OCTETS, _SIZE],
    "host_tick": [_U64],
    "host_next_deadline": [ctypes.POINTER(_U64)],
    "host_deliver": [_U64, _U32, _OCTETS, _SIZE],
    "host_next_frame": [_U64, _OCTETS],
}
_SILENT = ("host_free", "host_tick")


class NoLibrary(ImportError):
    """There is no library to load. Where nothing catches it, Python says so in a line."""


def _say(kind: Any, error: Any, trace: Any, otherwise: Any = sys.excepthook) -> None:
    if kind is NoLibrary:
        print(error, file=sys.stderr)
    else:
        otherwise(kind, error, trace)


def _refuse(why: str) -> NoReturn:
    sys.excepthook = _say
    raise NoLibrary(f"host: the library {why}") from None


def _load() -> Any:
    """The library, with the types of its calls. PyDLL keeps the interpreter's lock in a call, so no two calls ever overlap."""
    here = os.path.dirname(os.path.abspath(__file__))
    named = os.environ.get("HOST_LIBRARY")
    paths = [named, *(os.path.join(at, "libhostc.so") for at in (here, os.path.join(here, "out"), os.path.join(sys.prefix, "lib")))]
    found = [path for path in paths if path and (os.path.exists(path) or path == named)]
    try:
        library = ctypes.PyDLL(found[0] if found else "libhostc.so")
    except OSError as error:
        if found:
            _refuse(f"{found[0]} can't be loaded: {error}")
        _refuse("libhostc.so isn't there; embed/build makes it, in seconds, or the variable HOST_LIBRARY names it")
    for name, arguments in _CALLS.items():
        call = getattr(library, name, None)
        if call is None:
            _refuse(f"{found[0] if found else 'libhostc.so'} has no {name}, so it is older than host.py; embed/build makes it anew")
        call.argtypes = [_HANDLE, *arguments]
        call.restype = None if name in _SILENT else ctypes.c_int64
    return library


_LIBRARY = _load()


def _addr(addr: Address) -> int:
    return int(ipaddress.IPv4Address(addr))


def _number(value: int, bits: int, what: str) -> int:
    """`value`, where it is a number of so many bits: ctypes would cut it to them in silence."""
    if not 0 <= value < 1 << bits:
        raise OverflowError(f"{what} must be 0 to {(1 << bits) - 1}, not {value}")
    return value


def _answer(number: int) -> int:
    """What a call answered, where it isn't refused."""
    if number >= 0:
        return number
    raise _refusal(number)


def _refusal(number: int) -> OSError:
    """What a call raises that answered this number, which is negative."""
    code = _ERRNO[-number - 1]
    return OSError(code, os.strerror(code))


def _done(answer: Optional[T]) -> T:
    """What a `try_` call answered, where there was something to do."""
    if answer is None:
        raise _refusal(_EAGAIN)
    return answer


class Host:
    """A host at `addr` (`"10.0.0.1"`), whose interface has the MAC `mac` (`"02:00:00:00:00:01"`, or six octets).

    `routes` has for each prefix (`"10.0.0.0/24"`) the gateway, or None where the prefix is on the link. With `scale` the host uses the window
    scale option, and a connection with a peer that does too holds as many octets each way as `buffer` says, else 65,535 at most. With `minshall` a small
    segment waits for a small one only, and the FIN goes with the last octets (RFC 9293 appendix A.3).

    `recovery` says how losses are repaired. `first_segments` are those of the first congestion window, 1 to 10 (RFC 6928), else two to four;
    `least_timeout` is the least retransmission timeout, 200 to 1,000 milliseconds (RFC 6298 section 2.4), else 1,000; `first_threshold` is the first
    slow start threshold, 65,535 to 1,073,741,824 octets (RFC 5681 section 3.1), else 65,535. Of these 0 is the usual, and another number that is
    out of its range counts as the nearest in it. With `guards` the host is on its guard: it drops what comes from the address of a network on its link,
    or of all its hosts, and ARP packets of such an address, of a group's MAC and of its own (RFC 1122 section 3.2.1.3); it takes no octets with an
    acknowledgement older than the largest window of the peer is wide, answers at most ten segments a second of a connection that it doesn't use
    (RFC 5961), and a SYN that comes again by the SYN-ACK again. Where a SYN or a socket finds no room, a half-open connection whose SYN-ACK nobody
    answered for a second gives way, or one in TIME-WAIT that was closed here; and such a one to a SYN between its ends that is past all that was heard
    on it. To a fragment the oldest datagram that is put together gives way, and one of a datagram that was whole within the last second begins none. A
    host that meets a real network wants `recovery=Recovery.SELECTIVE, first_segments=10, least_timeout=200, first_threshold=1 << 30,
    guards=True`.

    The others are its sizes, which say how much it has room for. `entries` are sockets and connections, those among them that still end, 1 to 16,384, else
    64; `buffer` are the octets that a connection holds each way, 2,048 to 1,048,576, else 1,048,576; `reassemblies` are the datagrams that are put
    together of fragments at a time, 0 to 16, and `reassembly_octets` the longest payload of one, its UDP header among it, 1,480 to 65,515; `replies` are
    control replies that wait (ARP, ICMP, resets), 1 to 64, else 16; `neighbours` are those on the link that are known, 8 to 4,096, else 64. Another number
    is refused with EINVAL, but that 0 is the usual, save of `reassemblies`: with 0 of these none is put together.

    A host is freed by `free`, at the end of a `with`, or when nothing names it any more.
    """

    def __init__(
        self,
        mac: Union[str, bytes],
        addr: Address,
        routes: Mapping[str, Optional[Address]],
        scale: bool = True,
        minshall: bool = False,
        recovery: Recovery = Recovery.PLAIN,
        first_segments: int = 0,
        least_timeout: int = 0,
        first_threshold: int = 0,
        guards: bool = False,
        entries: int = 0,
        buffer: int = 0,
        reassemblies: int = 4,
        reassembly_octets: int = 0,
        replies: int = 0,
        neighbours: int = 0,
    ) -> None:
        self._handle = _Handle()
        # What is read stands here first: it is made once, and once more for a call that asks for more octets than any before.
        self._buffer = ctypes.create_string_buffer(FRAME_SIZE)
        if isinstance(mac, str):
            mac = bytes.fromhex(mac.replace(":", ""))
        if len(mac) != 6:
            raise ValueError("a MAC has six octets")
        rows = (_Route * max(len(routes), 1))()
        for row, (prefix, gateway) in zip(rows, routes.items()):
            network = ipaddress.IPv4Network(prefix)
            row.prefix, row.length = int(network.network_address), network.prefixlen
            row.gateway = 0 if gateway is None else _addr(gateway)
        config = _Config(ctypes.sizeof(_Config), None, len(routes), _addr(addr), tuple(mac), not scale, minshall)
        config.recovery = Recovery(recovery)
        config.first_segments = _number(first_segments, 8, "first_segments")
        config.least_timeout = _number(least_timeout, 16, "least_timeout")
        config.first_threshold = _number(first_threshold, 32, "first_threshold")
        config.guards = guards
        config.entries = _number(entries, 32, "entries")
        config.buffer = _number(buffer, 32, "buffer")
        config.reassemblies = _number(reassemblies, 8, "reassemblies")
        config.no_reassembly = reassemblies == 0
        config.reassembly_octets = _number(reassembly_octets, 16, "reassembly_octets")
        config.replies = _number(replies, 8, "replies")
        config.neighbours = _number(neighbours, 16, "neighbours")
        self._call("host_new_from", bytes(config), config.size, rows, len(routes))

    def _call(self, name: str, *arguments: Any) -> int:
        return _answer(getattr(_LIBRARY, name)(self._handle, *arguments))

    def _try(self, name: str, *arguments: Any) -> Optional[int]:
        """What a call answered; None where that is EAGAIN."""
        number = getattr(_LIBRARY, name)(self._handle, *arguments)
        return None if number == _EAGAIN else _answer(number)

    def _room(self, size: int) -> int:
        """How many octets of the buffer a call may fill that asks for so many."""
        size = min(_number(size, 63, "a size"), _MOST)
        if size > len(self._buffer):
            self._buffer = ctypes.create_string_buffer(size)
        return size

    def free(self) -> None:
        """Ends the host and gives its memory back; again: nothing. Every later call raises EBADF, and `deliver` answers NO_HOST."""
        _LIBRARY.host_free(self._handle)

    def __enter__(self) -> Host:
        return self

    def __exit__(self, *_raised: object) -> None:
        self.free()

    def __del__(self) -> None:
        if _LIBRARY is not None and hasattr(self, "_handle"):
            self.free()

    # Socket calls.

    def socket(self, kind: int = Kind.TCP) -> int:
        """A new socket's id."""
        return self._call("host_socket", _number(kind, 32, "a kind"))

    def bind(self, id: int, local: Tuple[Address, int]) -> None:
        """Binds a socket to a local endpoint, at our address or at "0.0.0.0", which stands for it; port 0 takes a dynamic port."""
        self._call("host_bind", _id(id), *_ends(local))

    def listen(self, id: int, backlog: int = 1) -> None:
        """Lets a bound socket take connections, of which `backlog` may wait to be accepted."""
        self._call("host_listen", _id(id), _number(backlog, 64, "a backlog"))

    def accept(self, id: int) -> Tuple[int, Endpoint]:
        """The id of the connection that was open first of those that wait at a listener, and its peer."""
        return _done(self.try_accept(id))

    def try_accept(self, id: int) -> Optional[Tuple[int, Endpoint]]:
        """`accept`, or None where none waits."""
        peer = _Endpoint()
        accepted = self._try("host_accept", _id(id), peer)
        return None if accepted is None else (accepted, peer.read())

    def connect(self, now: int, isn: int, id: int, peer: Tuple[Address, int]) -> None:
        """Begins to open a connection, with the initial number `isn`."""
        self._call("host_connect", _moment(now), _isn(isn), _id(id), *_ends(peer))

    def send(self, id: int, octets: Octets) -> int:
        """Gives octets to a connection: how many it took, the first that find room."""
        return _done(self.try_send(id, octets))

    def try_send(self, id: int, octets: Octets) -> Optional[int]:
        """`send`, or None where there is no room or the connection is opening."""
        octets = bytes(octets)
        return self._try("host_send", _id(id), octets, len(octets))

    def recv(self, id: int, size: int) -> bytes:
        """The next octets of a connection, at most `size`; b"" is the end of the stream."""
        return _done(self.try_recv(id, size))

    def try_recv(self, id: int, size: int) -> Optional[bytes]:
        """`recv`, or None where there is nothing to read yet."""
        if not 0 <= size <= FRAME_SIZE:
            size = self._room(size)
        length = _LIBRARY.host_recv(self._handle, _id(id), self._buffer, size)
        return None if length == _EAGAIN else ctypes.string_at(self._buffer, _answer(length))

    def shutdown_write(self, id: int) -> None:
        """Closes our side of a connection, behind all octets that were given."""
        self._call("host_shutdown_write", _id(id))

    def set_nodelay(self, id: int, on: bool = True) -> None:
        """Lets small segments of a connection go out at once, and not wait until what went out before is acknowledged; or wait, as at first."""
        self._call("host_set_nodelay", _id(id), int(bool(on)))

    def set_keepalive(self, id: int, milliseconds: Optional[int]) -> None:
        """Asks the peer of a connection whether it is there, after so many milliseconds each in which it said nothing; None or 0: no more, as at first."""
        self._call("host_set_keepalive", _id(id), _number(milliseconds or 0, 64, "a time"))

    def close(self, id: int) -> None:
        """Takes a socket away. (`free` ends the host.)"""
        self._call("host_close", _id(id))

    def abort(self, id: int) -> None:
        """Takes a socket away and ends its connection at once: the peer is sent a reset."""
        self._call("host_abort", _id(id))

    def sendto(self, id: int, peer: Tuple[Address, int], octets: Octets) -> int:
        """Gives a datagram to a UDP socket: its length."""
        octets = bytes(octets)
        return self._call("host_sendto", _id(id), *_ends(peer), octets, len(octets))

    def recvfrom(self, id: int, size: int = DATAGRAM_SIZE) -> Tuple[bytes, Endpoint]:
        """The first datagram that came, cut to `size` octets, and the endpoint that it is from."""
        return _done(self.try_recvfrom(id, size))

    def try_recvfrom(self, id: int, size: int = DATAGRAM_SIZE) -> Optional[Tuple[bytes, Endpoint]]:
        """`recvfrom`, or None where none came."""
        size, source = self._room(size), _Endpoint()
        length = self._try("host_recvfrom", _id(id), self._buffer, size, source)
        return None if length is None else (ctypes.string_at(self._buffer, length), source.read())

    def state(self, id: int) -> State:
        """The State of a socket."""
        return State(self._call("host_state", _id(id)))

    def sockname(self, id: int) -> Endpoint:
        """Where a socket is: our end of its connection, else where it is bound; ("0.0.0.0", 0) where it isn't."""
        end = _Endpoint()
        self._call("host_sockname", _id(id), end)
        return end.read()

    def peername(self, id: int) -> Endpoint:
        """The other end of a socket's connection, also of one that is over."""
        end = _Endpoint()
        self._call("host_peername", _id(id), end)
        return end.read()

    # Questions that change nothing.

    def info(self, id: int) -> Info:
        """The Info of a socket's connection, in any state. `error` is the system's number of what every call raises."""
        names = [field.name for field in dataclasses.fields(Info)]
        numbers = (ctypes.c_int64 * len(names))()
        self._call("host_info_into", _id(id), numbers, len(numbers))
        told: Dict[str, Any] = dict(zip(names, numbers))
        for name in ("srtt", "rttvar", "retransmission", "probe", "delayed_ack", "override", "ends"):
            told[name] = None if told[name] < 0 else told[name]
        for name, parts in (("srtt", 8), ("rttvar", 4)):
            told[name] = None if told[name] is None else told[name] / parts
        told["error"] = _ERRNO[-told["error"] - 1] if told["error"] else None
        told["state"] = State(told["state"])
        return Info(**told)

    def counters(self) -> Counters:
        """The Counters of the host."""
        numbers = (ctypes.c_int64 * len(dataclasses.fields(Counters)))()
        self._call("host_counters_into", numbers, len(numbers))
        return Counters(*numbers)

    def would_connect(self, id: int, peer: Tuple[Address, int]) -> Optional[Tuple[Endpoint, Endpoint]]:
        """The two endpoints of the connection that `connect` would open now, the lesser first; None where it would be refused."""
        pair = (_Endpoint * 2)()
        return (pair[0].read(), pair[1].read()) if self._call("host_would_connect", _id(id), *_ends(peer), pair) else None

    def would_open(self, frame: Octets) -> Optional[Tuple[Endpoint, Endpoint]]:
        """The two endpoints of the connection that delivering this frame would open; None where it would open none."""
        frame, pair = bytes(frame), (_Endpoint * 2)()
        return (pair[0].read(), pair[1].read()) if self._call("host_would_open", frame, len(frame), pair) else None

    def ready(self, id: int) -> "Ready":
        """What a socket is Ready for."""
        return Ready(self._call("host_ready", _id(id)))

    def next_ready(self, after: int = 0, mask: "Ready" = Ready(63)) -> Optional[Tuple[int, "Ready"]]:
        """The first socket behind the id `after` that is ready for something of `mask`, and all that it is Ready for; None where there is none."""
        bits = _U32()
        id = self._call("host_next_ready", _id(after), _number(mask, 32, "a mask"), bits)
        return (id, Ready(bits.value)) if id else None

    def recv_len(self, id: int) -> int:
        """How many octets could be read at once: those of the first datagram, of a UDP socket."""
        return self._call("host_recv_len", _id(id))

    def send_room(self, id: int) -> int:
        """How many octets could be given at once: to a UDP socket in one datagram."""
        return self._call("host_send_room", _id(id))

    def concerns(self, frame: Any) -> Optional[int]:
        """The id of the socket that a frame is for; None where it is for none, or is a fragment."""
        frame = bytes(frame)
        return self._call("host_concerns", frame, len(frame)) or None

    # Time and frames.

    def tick(self, now: int) -> None:
        """Lets time pass: each timer acts whose moment has come."""
        _LIBRARY.host_tick(self._handle, _moment(now))

    def next_deadline(self) -> Optional[int]:
        """The moment at which `tick` is wanted at the latest, or None. A program that takes frames until there is none, and ticks then, never sleeps
        for ever over octets that a peer to whom a route leads has not acknowledged. Where nobody answers the requests for the peer's MAC, there is one
        each second, until the connection is given up after 483,000 ms."""
        moment = _U64()
        return moment.value if self._call("host_next_deadline", moment) else None

    def deliver(self, now: int, isn: int, frame: Octets) -> Optional[Drop]:
        """Hands a frame that arrived to the host: None where it was taken, else the Drop. `isn` is used where it opens a connection."""
        frame = bytes(frame)
        answer = _LIBRARY.host_deliver(self._handle, _moment(now), _isn(isn), frame, len(frame))
        return None if answer == 0 else Drop(-answer)

    def next_frame(self, now: int) -> Optional[bytes]:
        """The next frame that is due, or None."""
        length = _LIBRARY.host_next_frame(self._handle, _moment(now), self._buffer)
        return ctypes.string_at(self._buffer, _answer(length)) if length else None


def _id(id: int) -> int:
    return id if 0 <= id < 1 << 64 else _number(id, 64, "an id")


def _moment(now: int) -> int:
    return now if 0 <= now < 1 << 64 else _number(now, 64, "a moment")


def _isn(isn: int) -> int:
    return isn if 0 <= isn < 1 << 32 else _number(isn, 32, "an initial number")


def _ends(endpoint: Tuple[Address, int]) -> Tuple[int, int]:
    addr, port = endpoint
    return _addr(addr), _number(port, 16, "a port")
