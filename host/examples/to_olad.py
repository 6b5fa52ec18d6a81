#!/usr/bin/python3
"""Plays a show and hands its frames to olad, OLA's daemon, in one process.

    to_olad.py FILE [--universes N] [--port PORT]

The cues follow one another: a `go` each time the playback is at rest, until none is above. A tick comes each 20 ms, and after it each
universe whose slots changed is handed over by OLA's own client (bridges/handover.py). Where that client or an olad isn't there, one line
says so and nothing is played. bridges/README.md says how to install both, and which universe goes where.
"""
import argparse
import os
import socket
import sys
import time

HERE = os.path.dirname(os.path.abspath(__file__))
sys.path[:0] = [os.path.join(HERE, "..", "python"), os.path.join(HERE, "..", "..", "bridges")]
import cuedesk  # noqa: E402

SECONDS = cuedesk.TICK / 100


def play(desk: cuedesk.Desk, handover: "HandOver", universes: int) -> None:
    """Runs the cues in order, up to the rest after the last."""
    due = time.monotonic()
    state = desk.state()
    while state.next or not state.rests:
        if state.rests:
            desk.do("go")
        desk.tick()
        for universe in range(1, universes + 1):
            if desk.changed(universe):
                handover.give(universe, desk.frame(universe))
        handover.turn()
        due += SECONDS
        time.sleep(max(0.0, due - time.monotonic()))
        state = desk.state()


def listens(port: int) -> bool:
    """An olad is there."""
    try:
        socket.create_connection(("127.0.0.1", port), timeout=1).close()
        return True
    except OSError:
        return False


def main() -> int:
    """The exit status: 1 where the file can't be read, the show is refused, or olad lacks a last frame."""
    parser = argparse.ArgumentParser()
    parser.add_argument("file")
    parser.add_argument("--universes", type=int, default=1)
    parser.add_argument("--port", type=int, default=9010)
    given = parser.parse_args()
    if not 1 <= given.universes <= cuedesk.UNIVERSES:
        parser.error(f"N is from 1 to {cuedesk.UNIVERSES}")
    try:
        with open(given.file, "rb") as file:
            text = file.read()
    except OSError as fault:
        sys.exit(f"{given.file}: {fault.strerror}")
    try:
        from handover import HandOver
    except ImportError:
        print("to_olad: left out, since OLA's client for Python isn't there (bridges/README.md)")
        return 0
    if not listens(given.port):
        print(f"to_olad: left out, since no olad listens on port {given.port}")
        return 0
    handover = HandOver(say=print, port=given.port)
    try:
        with cuedesk.Desk(text) as desk:
            play(desk, handover, given.universes)
    except cuedesk.ShowRefused as fault:
        sys.exit(str(fault))
    late = handover.finish(5)
    return 1 if late else 0


if __name__ == "__main__":
    sys.exit(main())
