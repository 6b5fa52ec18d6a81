#!/usr/bin/python3
"""observe.py FILE U..: notes each frame of the universes that olad tells a client: when it came, the universe, the levels in hexadecimal.

Says `ready` once it is told of all of them, and ends at a signal.
"""
import select
import signal
import sys
import time
from typing import List

from ola.ClientWrapper import ClientWrapper

now = 0.0


def main() -> None:
    """Notes frames until the signal. The moment of a frame is that at which the client's socket could be read."""
    global now
    universes = list(map(int, sys.argv[2:]))
    client = ClientWrapper().Client()
    told: List[object] = []
    is_ready = False
    signal.signal(signal.SIGTERM, lambda *_: sys.exit())
    with open(sys.argv[1], "w") as out:
        for universe in universes:
            note = lambda levels, universe=universe: out.write(f"{now:.6f} {universe} {bytes(levels).hex()}\n")
            client.RegisterUniverse(universe, client.REGISTER, note, told.append)
        while True:
            select.select([client.GetSocket()], [], [])
            now = time.monotonic()
            try:
                client.SocketReady()
            except OSError:
                signal.pause()      # olad was killed
            if not is_ready and len(told) == len(universes):
                is_ready = True
                print("ready", flush=True)


if __name__ == "__main__":
    main()
