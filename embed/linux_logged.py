"""A host in this process whose frames and calls are noted, as `tap --pcap FILE --log LOG` notes those of its own; tools/capture_log.py says what the lines
are."""

from typing import Any, Mapping, Optional, Tuple

from host import Address, Drop, Endpoint, Host, Octets
from testbed_frames import Capture, mac_text

# How many octets a connection holds each way unless the host is made otherwise, and how many at most where its windows aren't scaled.
USUAL, UNSCALED = 1_048_576, 65_535
MILLISECOND = 1_000_000


class LoggedHost(Host):
    """A host with a capture and a log, whose moments are those of its own clock."""

    def __init__(self, mac: bytes, addr: str, routes: Mapping[str, Optional[Address]], capture: str, log: str, **options: Any) -> None:
        super().__init__(mac, addr, routes, **options)
        self._capture = Capture(capture)
        self._log = open(log, "w", encoding="ascii")
        self._frames = self._now = 0
        buffer = options.get("buffer") or USUAL
        self._log.write(f"host {mac_text(mac)} {addr} buffers {buffer} {min(buffer, UNSCALED)}\n")

    def free(self) -> None:
        super().free()
        self._capture.close()
        self._log.close()

    def _note(self, *words: object) -> None:
        self._log.write(" ".join(map(str, [self._frames, f"{self._now // 1000}.{self._now % 1000:03}000", *words])) + "\n")

    def _note_ends(self, call: str, id: int, peer: Tuple[Any, int], *words: object) -> None:
        ours = self.sockname(id)
        self._note(call, id, f"{ours[0]}:{ours[1]}", f"{peer[0]}:{peer[1]}", *words)

    def _count(self, frame: bytes) -> None:
        self._capture.add(self._now * MILLISECOND, frame)
        self._frames += 1

    def deliver(self, now: int, isn: int, frame: Octets) -> Optional[Drop]:
        self._now = max(self._now, now)
        self._count(bytes(frame))
        return super().deliver(now, isn, frame)

    def next_frame(self, now: int) -> Optional[bytes]:
        frame = super().next_frame(now)
        if frame is not None:
            self._now = max(self._now, now)
            self._note("next_frame")
            self._count(frame)
        return frame

    def connect(self, now: int, isn: int, id: int, peer: Tuple[Address, int]) -> None:
        super().connect(now, isn, id, peer)
        self._note_ends("connect", id, peer)

    def try_accept(self, id: int) -> Optional[Tuple[int, Endpoint]]:
        accepted = super().try_accept(id)
        if accepted is not None:
            self._note_ends("accept", *accepted)
        return accepted

    def try_send(self, id: int, octets: Octets) -> Optional[int]:
        taken = super().try_send(id, octets)
        if taken is not None:
            self._note("send", id, bytes(octets)[:taken].hex() or "-")
        return taken

    def try_recv(self, id: int, size: int) -> Optional[bytes]:
        octets = super().try_recv(id, size)
        if octets is not None:
            self._note(*("recv", id, octets.hex()) if octets else ("end", id))
        return octets

    def shutdown_write(self, id: int) -> None:
        super().shutdown_write(id)
        self._note("shutdown", id)

    def close(self, id: int) -> None:
        super().close(id)
        self._note("close", id)

    def abort(self, id: int) -> None:
        super().abort(id)
        self._note("abort", id)

    def sendto(self, id: int, peer: Tuple[Address, int], octets: Octets) -> int:
        taken = super().sendto(id, peer, octets)
        self._note_ends("sendto", id, peer, bytes(octets).hex() or "-")
        return taken

    def try_recvfrom(self, id: int, size: int = 65_507) -> Optional[Tuple[bytes, Endpoint]]:
        came = super().try_recvfrom(id, size)
        if came is not None:
            self._note_ends("recvfrom", id, came[1], size, came[0].hex() or "-")
        return came
