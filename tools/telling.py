"""Says on standard error which long work goes on: on a terminal each second in one line, and elsewhere in a line each
half minute."""
import contextlib
import fcntl
import sys
import threading
import time

# How often, in seconds, it is said on a terminal, and elsewhere.
OFTEN, SELDOM = 1, 30


@contextlib.contextmanager
def told(what, going_on):
    """Says which work has begun, and then, until the body ends, which work goes on and for how long."""
    is_over, began = threading.Event(), time.monotonic()
    pause, head, tail = (OFTEN, "\r", " ") if sys.stderr.isatty() else (SELDOM, "", "\n")

    def tell():
        while not is_over.wait(pause):
            line = f"{head}sm: {going_on}, {time.monotonic() - began:.0f} s{tail}"
            print(line, end="", file=sys.stderr, flush=True)

    print(f"sm: {what}", file=sys.stderr, flush=True)
    thread = threading.Thread(target=tell, daemon=True)
    thread.start()
    try:
        yield
    finally:
        is_over.set()
        thread.join()
        if head:
            print("\r\033[K", end="", file=sys.stderr, flush=True)


@contextlib.contextmanager
def alone(folder):
    """Keeps others from building in the folder while the body runs: a later process waits, and says so."""
    with open(folder / ".lock", "w", encoding="utf-8") as lock:
        try:
            fcntl.flock(lock, fcntl.LOCK_EX | fcntl.LOCK_NB)
        except BlockingIOError:
            with told("another run builds what this one needs, so it is waited for", "waiting for another build"):
                fcntl.flock(lock, fcntl.LOCK_EX)
        yield
