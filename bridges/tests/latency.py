#!/usr/bin/python3
"""latency.py [--universes U] [--seconds S] [--observers N] [--at-once]: how long a frame takes from the bridge's pipe to a client of olad.

50 lines a second of 512 slots are written into each of U pipes. Each outlet of the desk looks for a new version every 2 milliseconds, so each
line comes by as much behind its tick, drawn at random; with --at-once those of a tick come one behind the other. Clients of olad note
when each frame came, every universe goes out on E1.31.
"""
import argparse
import os
import random
import tempfile
import time
from typing import Dict, Tuple

import rig


def tail_of(draw: random.Random) -> bytes:
    """Slots 3 to 512 of a line."""
    return b" ".join(b"%d=%d" % (slot, draw.randrange(1, 256)) for slot in range(3, 513)) + b"\n"


def written(folder: str, universes: int, seconds: float, spread: float) -> Dict[Tuple[int, int, int], float]:
    """Writes the lines, and answers when each was written, by universe and the two levels that tell its number."""
    draw = random.Random(1)
    pipes = [open(os.path.join(folder, f"universe-{u}.txt"), "wb", 0) for u in range(1, universes + 1)]
    tails = [tail_of(draw) for _ in range(100)]
    moments, begin = {}, time.monotonic() + 0.1
    for count in range(int(50 * seconds)):
        order = sorted((draw.random() * spread, universe) for universe in range(1, universes + 1))
        for late, universe in order:
            first, second = 1 + count % 200, 1 + count // 200
            line = b"frame %d %d %d 1=%d 2=%d " % (count, 2 * count, universe, first, second) + tails[draw.randrange(100)]
            time.sleep(max(0.0, begin + count * 0.02 + late - time.monotonic()))
            moments[universe, first, second] = time.monotonic()
            pipes[universe - 1].write(line)
    for pipe in pipes:
        pipe.close()
    return moments


def main() -> None:
    """Prints the median, the 99th of 100 and the greatest latency."""
    parser = argparse.ArgumentParser()
    parser.add_argument("--universes", type=int, default=16)
    parser.add_argument("--seconds", type=float, default=10)
    parser.add_argument("--observers", type=int, default=4)
    parser.add_argument("--at-once", action="store_true")
    given = parser.parse_args()
    rig.made_space()
    ports = [(rig.E131, u - 1, u) for u in range(1, given.universes + 1)]
    with tempfile.TemporaryDirectory() as folder, rig.Olad(ports, given.universes) as olad:
        shares = [list(range(1 + n, given.universes + 1, given.observers)) for n in range(given.observers)]
        observers = [rig.Observer(share) for share in shares if share]
        bridge = rig.Bridge(folder, given.universes)
        used = olad.processor_seconds()
        moments = written(folder, given.universes, given.seconds, 0 if given.at_once else 0.002)
        bridge_used = rig.processor_seconds(bridge.process.pid)
        used = olad.processor_seconds() - used
        status, said = bridge.end()
        late = []
        for observer in observers:
            for universe, frames in observer.stop().items():
                late += [when - moments[universe, levels[0], levels[1]] for when, levels in frames if (universe, levels[0], levels[1]) in moments]
    late.sort()
    at = lambda share: 1000 * late[min(len(late) - 1, int(len(late) * share))]
    print(f"{given.universes} universes, {len(moments)} lines written, {len(late)} frames seen; milliseconds: median {at(0.5):.2f}, 99 of 100 "
          f"{at(0.99):.2f}, greatest {1000 * late[-1]:.2f}; load {os.getloadavg()[0]:.1f}; bridge {bridge_used:.2f} s of processor time, "
          f"olad {used:.2f} s; status {status} {said}")


if __name__ == "__main__":
    main()
