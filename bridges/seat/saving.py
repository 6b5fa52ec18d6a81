"""Writes a show's text into a file, beside the show that plays on: a slow disk holds up no tick."""
import errno
import os
import queue
import tempfile
import threading
from typing import Callable, List, Optional, Tuple

from .player import Player


def write_file(path: str, text: bytes) -> None:
    """Puts the text into the file's place once it is whole on the disk; a file that was there before keeps its permissions."""
    path = os.path.realpath(path)
    if os.path.exists(path) and not os.path.isfile(path):
        raise OSError(errno.EINVAL, "it is no plain file")
    file, name = tempfile.mkstemp(dir=os.path.dirname(path), prefix=".cuedesk-")
    try:
        with open(file, "wb") as out:
            out.write(text)
            out.flush()
            os.fsync(file)
            os.fchmod(file, os.stat(path).st_mode & 0o777 if os.path.exists(path) else 0o666 & ~UMASK)
        os.replace(name, path)
    except BaseException:
        os.unlink(name)
        raise


def current_umask() -> int:
    """The permissions that new files don't get."""
    umask = os.umask(0o022)
    os.umask(umask)
    return umask


UMASK = current_umask()


class Saver:
    """Saves in a thread, and says what came of it."""

    def __init__(self, player: Player) -> None:
        self._player = player
        self._results: "queue.SimpleQueue[Tuple[str, bytes, Optional[OSError], Optional[Callable[[], None]]]]" = queue.SimpleQueue()
        self._threads: List[threading.Thread] = []

    def begin(self, path: str, text: bytes, then: Optional[Callable[[], None]] = None) -> None:
        """Begins to write, once what was begun before is written; `then` is called once it is done well."""
        before = self._threads[-1] if self._threads else None

        def write() -> None:
            """In the thread."""
            if before:
                before.join()
            try:
                write_file(path, text)
                self._results.put((path, text, None, then))
            except OSError as error:
                self._results.put((path, text, error, None))

        thread = threading.Thread(target=write)
        self._threads.append(thread)
        thread.start()

    def take(self) -> None:
        """Says what was saved since the last call."""
        while not self._results.empty():
            path, text, error, then = self._results.get()
            if error is None:
                self._player.saved(text)
                self._player.say(f"save: {path} has the show, {len(text):,} bytes")
            else:
                self._player.say(f"save: {path} can't be written: {error.strerror}")
            if then:
                then()

    def finish(self) -> None:
        """Waits until all is written."""
        for thread in self._threads:
            thread.join()
        self.take()
