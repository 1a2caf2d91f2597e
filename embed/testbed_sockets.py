"""The sockets of a `testbed` network: those for tasks that take turns, TLS over them, and those for code that blocks."""

from __future__ import annotations

import errno
import functools
import io
import os
import socket as system
import ssl
from typing import TYPE_CHECKING, Any, Callable, Generator, Optional, Protocol, Tuple, TypeVar

from host import Endpoint, Host, Octets, Ready
from testbed_tasks import MILLISECOND, Call, Wait
from testbed_trace import Trace

if TYPE_CHECKING:
    from testbed import Network, Station

__all__ = ["BlockingListener", "BlockingSocket", "Datagrams", "Listener", "Socket", "Tls"]

T = TypeVar("T")
# How many octets go through TLS at once.
CHUNK = 65536


class _Socket:
    """A socket of a station. Each call that waits is refused with TimeoutError after `timeout` milliseconds; None: never."""

    def __init__(self, station: Station, id: int, timeout: Optional[float] = None) -> None:
        self.station, self.network, self.id, self.timeout = station, station.network, id, timeout

    def sockname(self) -> Endpoint:
        """Where the socket is."""
        return self.station.host.sockname(self.id)

    def close(self) -> None:
        """Takes the socket away; again: nothing. What was given still goes out; where octets are unread, the peer is sent a reset."""
        if self.id:
            self.station.turn().close(self.id)
            self.id = 0

    def _wait_for(self, mask: Ready, attempt: Callable[[Host], Optional[T]]) -> Generator[Wait, None, T]:
        """What an attempt answers that isn't None: it is made once more whenever the socket has become ready for one of a mask."""
        limit = None if self.timeout is None else self.network.clock + round(self.timeout * MILLISECOND)
        while True:
            answer = attempt(self.station.turn())
            if answer is not None:
                return answer
            if limit is not None and self.network.clock >= limit:
                raise TimeoutError(errno.ETIMEDOUT, "the time of the call is over")
            yield Wait(self.station.crowd, lambda: self._is_ready(mask), limit)

    def _is_ready(self, mask: Ready) -> bool:
        try:
            return bool(self.station.host.ready(self.id) & mask)
        except OSError:
            return True  # it was closed, which the attempt tells


class Socket(_Socket):
    """A TCP connection, for tasks that take turns: the calls that wait are Calls."""

    def recv(self, size: int) -> Call[bytes]:
        """The next octets, at most `size`; b"" is the end of the stream."""
        return Call(self._wait_for(Ready.READ | Ready.ENDED | Ready.FAILED, lambda host: host.try_recv(self.id, size)))

    def sendall(self, octets: Octets) -> Call[None]:
        """Gives all octets to the connection, in their turn where there is no room at once."""
        return Call(self._sendall(octets))

    def opened(self) -> Generator[Wait, None, bool]:
        """Waits until the connection is open; refused with what ended it."""
        return self._wait_for(Ready.READ | Ready.WRITE | Ready.ENDED | Ready.FAILED, self._is_open)

    def shutdown_write(self) -> None:
        """Closes our side, behind all that was given."""
        self.station.turn().shutdown_write(self.id)

    def abort(self) -> None:
        """Takes the socket away, and sends the peer a reset."""
        self.station.turn().abort(self.id)
        self.id = 0

    def peername(self) -> Endpoint:
        """The other end of the connection."""
        return self.station.host.peername(self.id)

    def trace(self) -> Trace:
        """Begins to write down how the connection stands."""
        return self.station.trace(self.id)

    def _is_open(self, host: Host) -> Optional[bool]:
        if host.ready(self.id) & Ready.OPENING:
            return None
        host.send_room(self.id)  # refused with what ended the connection
        return True

    def _sendall(self, octets: Octets) -> Generator[Wait, None, None]:
        left = memoryview(octets).cast("B")
        while left:
            taken = yield from self._wait_for(Ready.WRITE | Ready.FAILED, functools.partial(self._give, left))
            left = left[taken:]

    def _give(self, left: memoryview, host: Host) -> Optional[int]:
        """How many of these octets the connection takes; None where it has no room."""
        return host.try_send(self.id, left[: max(host.send_room(self.id), 1)])


class Listener(_Socket):
    """A listening socket, for tasks that take turns."""

    def accept(self) -> Call[Tuple[Socket, Endpoint]]:
        """The next connection and its peer."""
        return Call(self._accept())

    def _accept(self) -> Generator[Wait, None, Tuple[Socket, Endpoint]]:
        id, peer = yield from self._wait_for(Ready.ACCEPT, lambda host: host.try_accept(self.id))
        return Socket(self.station, id), peer


class Datagrams(_Socket):
    """A UDP socket, for tasks that take turns."""

    def sendto(self, octets: Octets, peer: Endpoint) -> int:
        """Gives a datagram: its length. BlockingIOError where there is no room."""
        return self.station.turn().sendto(self.id, peer, octets)

    def recvfrom(self) -> Call[Tuple[bytes, Endpoint]]:
        """The first datagram that came, and where it is from."""
        return Call(self._wait_for(Ready.READ, lambda host: host.try_recvfrom(self.id)))


class Stream(Protocol):
    """What carries octets both ways: a Socket, or a Tls over one."""

    network: Network
    station: Station
    id: int
    timeout: Optional[float]

    def recv(self, size: int) -> Call[bytes]:
        """The next octets; b"" is the end."""

    def sendall(self, octets: Octets) -> Call[None]:
        """Gives all octets."""

    def shutdown_write(self) -> None:
        """Closes our side."""

    def close(self) -> None:
        """Ends it."""


class Tls:
    """TLS over a Socket, by `ssl.SSLObject` between two `ssl.MemoryBIO`. Its refusals are those of the socket, and ssl.SSLError."""

    def __init__(self, socket: Socket, context: ssl.SSLContext, server_side: bool = False, server_hostname: Optional[str] = None) -> None:
        self._socket, self._in, self._out = socket, ssl.MemoryBIO(), ssl.MemoryBIO()
        self.network, self.station, self.id = socket.network, socket.station, socket.id
        self.object = context.wrap_bio(self._in, self._out, server_side, server_hostname)

    @classmethod
    def over(cls, socket: Socket, context: ssl.SSLContext, server_side: bool = False, server_hostname: Optional[str] = None) -> Call[Tls]:
        """TLS over a socket, once both ends have shaken hands."""
        return Call(cls(socket, context, server_side, server_hostname)._shaken())

    @property
    def timeout(self) -> Optional[float]:
        """That of the socket, in milliseconds."""
        return self._socket.timeout

    @timeout.setter
    def timeout(self, milliseconds: Optional[float]) -> None:
        self._socket.timeout = milliseconds

    def recv(self, size: int) -> Call[bytes]:
        """The next octets, at most `size`; b"" is the end of the stream, also where the peer doesn't say so in TLS."""
        return Call(self._recv(size))

    def sendall(self, octets: Octets) -> Call[None]:
        """Gives all octets to the connection."""
        return Call(self._sendall(octets))

    def shutdown_write(self) -> None:
        """Isn't there: in TLS a side is closed with the connection."""
        raise OSError(errno.EOPNOTSUPP, os.strerror(errno.EOPNOTSUPP))

    def close(self) -> None:
        """Tells the peer that this is the end, where there is room for it, and closes the socket."""
        if self._socket.id:
            try:
                self.object.unwrap()
            except (ssl.SSLError, ValueError):
                pass  # the peer hasn't told its end, or the handshake is not over
            self._tell()
            self._socket.close()

    def _shaken(self) -> Generator[Wait, None, Tls]:
        yield from self._drive(self.object.do_handshake)
        return self

    def _recv(self, size: int) -> Generator[Wait, None, bytes]:
        try:
            octets: bytes = yield from self._drive(lambda: self.object.read(size))
            return octets
        except (ssl.SSLZeroReturnError, ssl.SSLEOFError):
            return b""

    def _sendall(self, octets: Octets) -> Generator[Wait, None, None]:
        left = memoryview(octets).cast("B")
        while left:
            taken = yield from self._drive(functools.partial(self.object.write, left[:CHUNK]))
            left = left[taken:]

    def _tell(self) -> None:
        """Gives what the TLS object has to say last, where there is room for it and the connection isn't over."""
        try:
            self.station.turn().try_send(self._socket.id, self._out.read())
        except OSError:
            pass

    def _drive(self, call: Callable[[], T]) -> Generator[Wait, None, T]:
        """What a call of the TLS object answers, with the octets between it and the socket moved as it wants."""
        while True:
            wants = False
            answer: Any = None
            try:
                answer = call()
            except ssl.SSLWantReadError:
                wants = True
            except ssl.SSLError:
                self._tell()
                raise
            if self._out.pending:
                yield from self._socket.sendall(self._out.read())
            if not wants:
                result: T = answer
                return result
            octets = yield from self._socket.recv(CHUNK)
            if octets:
                self._in.write(octets)
            else:
                self._in.write_eof()


class _File(io.RawIOBase):
    """A stream as a file without a buffer, for `makefile`."""

    def __init__(self, socket: BlockingSocket, reads: bool, writes: bool) -> None:
        super().__init__()
        self._socket, self._reads, self._writes = socket, reads, writes

    def readable(self) -> bool:
        return self._reads

    def writable(self) -> bool:
        return self._writes

    def readinto(self, buffer: Any) -> int:
        return self._socket.recv_into(buffer)

    def write(self, octets: Any) -> int:
        return self._socket.send(octets)

    def close(self) -> None:
        if not self.closed:
            super().close()
            self._socket.file_closed()


class BlockingSocket:
    """A connection for code that blocks, with the calls of Python's own sockets; times are in seconds. It blocks as Network.wait does."""

    def __init__(self, stream: Stream) -> None:
        self.stream, self._files, self._closed = stream, 0, False

    def __enter__(self) -> BlockingSocket:
        return self

    def __exit__(self, *_raised: object) -> None:
        self.close()

    def recv(self, size: int, _flags: int = 0) -> bytes:
        """The next octets, at most `size`; b"" is the end of the stream."""
        return self.stream.network.wait(self.stream.recv(size))

    def recv_into(self, buffer: Any, size: int = 0, _flags: int = 0) -> int:
        """The next octets into a buffer: how many, and 0 at the end of the stream."""
        with memoryview(buffer).cast("B") as view:
            octets = self.recv(size or len(view))
            view[: len(octets)] = octets
        return len(octets)

    def send(self, octets: Octets, _flags: int = 0) -> int:
        """Gives octets: how many, which is all of them."""
        self.sendall(octets)
        return memoryview(octets).nbytes

    def sendall(self, octets: Octets, _flags: int = 0) -> None:
        """Gives all octets to the connection."""
        self.stream.network.wait(self.stream.sendall(octets))

    def makefile(
        self,
        mode: str = "r",
        buffering: Optional[int] = None,
        *,
        encoding: Optional[str] = None,
        errors: Optional[str] = None,
        newline: Optional[str] = None,
    ) -> Any:
        """A file over the connection, as Python's own sockets make it; the connection stays until the file is closed too."""
        reads, writes = "r" in mode or "w" not in mode, "w" in mode
        if not set(mode) <= set("rwb"):
            raise ValueError(f"a mode has r, w and b, unlike {mode!r}")
        raw = _File(self, reads, writes)
        self._files += 1
        if buffering == 0:
            if "b" not in mode:
                raise ValueError("a file of text has a buffer")
            return raw
        size = io.DEFAULT_BUFFER_SIZE if buffering is None or buffering < 0 else buffering
        if reads and writes:
            buffered: Any = io.BufferedRWPair(raw, raw, size)
        else:
            buffered = io.BufferedReader(raw, size) if reads else io.BufferedWriter(raw, size)
        return buffered if "b" in mode else io.TextIOWrapper(buffered, encoding, errors, newline)

    def tls(self, context: ssl.SSLContext, server_side: bool = False, server_hostname: Optional[str] = None) -> BlockingSocket:
        """This connection under TLS, once both ends have shaken hands: what `context.wrap_socket` is to the system's sockets."""
        if not isinstance(self.stream, Socket):
            raise ValueError("the connection is under TLS already")
        return BlockingSocket(self.stream.network.wait(Tls.over(self.stream, context, server_side, server_hostname)))

    def settimeout(self, seconds: Optional[float]) -> None:
        """Has each call that waits refused with TimeoutError after so long; None: never."""
        self.stream.timeout = None if seconds is None else seconds * 1000

    def gettimeout(self) -> Optional[float]:
        """After how many seconds that is."""
        return None if self.stream.timeout is None else self.stream.timeout / 1000

    def setsockopt(self, level: int, name: int, value: int) -> None:
        """TCP_NODELAY; any other is refused with ENOPROTOOPT."""
        if (level, name) != (system.IPPROTO_TCP, system.TCP_NODELAY):
            raise OSError(errno.ENOPROTOOPT, os.strerror(errno.ENOPROTOOPT))
        self.stream.station.turn().set_nodelay(self.stream.id, bool(value))

    def shutdown(self, how: int) -> None:
        """Closes our side of the connection, by SHUT_WR; any other is refused with EOPNOTSUPP."""
        if how != system.SHUT_WR:
            raise OSError(errno.EOPNOTSUPP, os.strerror(errno.EOPNOTSUPP))
        self.stream.shutdown_write()

    def getsockname(self) -> Endpoint:
        """Our end of the connection."""
        return self.stream.station.host.sockname(self.stream.id)

    def getpeername(self) -> Endpoint:
        """The other end of the connection."""
        return self.stream.station.host.peername(self.stream.id)

    def close(self) -> None:
        """Takes the socket away, once the files over it are closed too."""
        self._closed = True
        if self._files == 0:
            self.stream.close()

    def file_closed(self) -> None:
        """One of the files over it is closed."""
        self._files -= 1
        if self._closed:
            self.close()


class BlockingListener:
    """A listening socket for code that blocks."""

    def __init__(self, listener: Listener) -> None:
        self._listener = listener

    def accept(self) -> Tuple[BlockingSocket, Endpoint]:
        """The next connection and its peer."""
        socket, peer = self._listener.network.wait(self._listener.accept())
        return BlockingSocket(socket), peer

    def close(self) -> None:
        """Takes the listener away, and the connections that wait at it."""
        self._listener.close()
