"""A time limit for runs that talk with the program: one that hangs is a failure, and not a wait."""
import signal
import subprocess


class Started(subprocess.Popen):
    """A program that was started, and is killed where its run is left before its end."""

    def __exit__(self, kind, value, trace):
        if kind:
            self.kill()
        super().__exit__(kind, value, trace)


def within(seconds, run, *given):
    """What went wrong in a run; where it takes longer than the seconds given, or a call of the system fails, that alone."""
    def end(number, frame):
        raise TimeoutError

    before = signal.signal(signal.SIGALRM, end)
    signal.alarm(seconds)
    try:
        return run(*given)
    except (TimeoutError, subprocess.TimeoutExpired):
        return [f"no end within {seconds} seconds"]
    except OSError as error:
        return [str(error)]
    finally:
        signal.alarm(0)
        signal.signal(signal.SIGALRM, before)
