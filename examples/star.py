"""A star of three hosts round a router whose links lose frames: a server of HTTP, and two clients, which are `http.client` as it is. Beside it stand a
capture, how the first connection stood over time, and a picture of that.

Run it by `python3 examples/star.py [FOLDER]`, once `embed/build` has made the library; without a folder the files go to `embed/out`. The same seed gives
the same files."""

from __future__ import annotations

import http.client
import os
import random
import sys
from typing import Any, List, Tuple

sys.path.insert(0, os.path.join(os.path.dirname(os.path.abspath(__file__)), "..", "embed"))
from testbed import Link, Network, Socket, Station, Trace, decode

SERVER, PAGE = "10.0.3.1", random.Random(1).getrandbits(2_400_000).to_bytes(300_000, "big")


async def answer(socket: Socket) -> None:
    """Reads one request, up to its empty line, answers it, and waits for the client's end."""
    request = b""
    while b"\r\n\r\n" not in request:
        request += await socket.recv(4096)
    await socket.sendall(b"HTTP/1.1 200 OK\r\nConnection: close\r\nContent-Length: %d\r\n\r\n" % len(PAGE) + PAGE)
    socket.shutdown_write()
    await socket.recv(1)
    socket.close()


async def serve(net: Network, station: Station, traces: List[Trace]) -> None:
    """Serves each client in a task of its own, and has a trace of each connection."""
    listener = station.listen(80)
    while True:
        socket, _peer = await listener.accept()
        traces.append(socket.trace())
        net.task(answer(socket))


def fetch(station: Station) -> Tuple[int, bytes]:
    """Runs in a blocking task: plain Python, over a socket of the network."""
    connection = http.client.HTTPConnection(SERVER)
    socket: Any = station.create_connection((SERVER, 80), timeout=60)
    connection.sock = socket
    connection.request("GET", "/")
    response = connection.getresponse()
    return response.status, response.read()


def main(folder: str) -> None:
    """Builds the network, runs it until both clients are served, and writes the files."""
    os.makedirs(folder, exist_ok=True)
    files = {kind: os.path.join(folder, f"star.{kind}") for kind in ("pcap", "csv", "svg")}
    with Network(seed=1) as net:
        router = net.router()
        hosts: List[Station] = []
        links: List[Link] = []
        traces: List[Trace] = []
        for number in (1, 2, 3):
            hosts.append(net.host(f"10.0.{number}.1/24", gateway=f"10.0.{number}.254"))
            side = router.port(f"10.0.{number}.254/24")
            links.append(net.link(hosts[-1], side, delay=10, loss=0.01, repeat=0.01, reorder=0.01, rate=10_000_000))
        net.pcap(files["pcap"], links[2])
        net.task(serve(net, hosts[2], traces))
        clients = [net.blocking(fetch, host) for host in hosts[:2]]
        for number, client in enumerate(clients, 1):
            assert net.run(until=client) == (200, PAGE)
            print(f"client {number} has its {len(PAGE)} octets after {net.now} ms")
        resent = [trace.rows[-1][1].resent for trace in traces]
        print(f"{sum(link.lost for link in links)} frames were lost on the way; the server sent {resent[0]} and {resent[1]} segments again")
        traces[0].csv(files["csv"])
        traces[0].draw(files["svg"])
    with open(files["pcap"], "rb") as file:
        file.seek(24 + 16)
        print("the first frame at the server:", *decode(file.read(60)).split("\n"), sep="\n    ")
    print("made:", *files.values())


if __name__ == "__main__":
    main(sys.argv[1] if len(sys.argv) > 1 else os.path.join(os.path.dirname(os.path.abspath(__file__)), "..", "embed", "out"))
