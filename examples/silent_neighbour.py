"""A neighbour that isn't there: nobody answers the requests for its MAC, one a second, and the connection ends after 483 seconds of a clock that
is a number here.

Run it by `python3 examples/silent_neighbour.py`, once `embed/build` has made the library."""

import os, sys

sys.path.insert(0, os.path.join(os.path.dirname(os.path.abspath(__file__)), "..", "embed"))
from host import Host, State

now, requests = 0, 0
with Host("02:00:00:00:00:01", "10.0.0.1", {"10.0.0.0/24": None}) as host:
    caller = host.socket()
    host.connect(now, 5, caller, ("10.0.0.2", 80))
    while host.state(caller) is State.SYN_SENT:
        while host.next_frame(now):
            requests += 1
        deadline = host.next_deadline()
        assert deadline is not None
        now = deadline
        host.tick(now)
    assert (now, requests, host.next_deadline()) == (483_000, 483, None)
    try:
        host.recv(caller, 1)
    except TimeoutError as error:
        print(f"after {now} ms and {requests} requests: {error}")
