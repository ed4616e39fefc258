"""Follows a run: its phases, how long each took, and its end if one takes longer than it may."""
import faulthandler
import os
import sys
import threading
import time

# How often the progress of a phase is printed.
EVERY = 30


class Phases:
    """The phases of a run, one after another. If one takes too long, the process ends, and all processes that it began
    end too."""

    def __init__(self):
        self.start, self.name, self.began, self.end, self.how_far = time.monotonic(), None, 0, 0, str
        self.took, self.is_over, self.lock = [], threading.Event(), threading.Lock()
        self.thread = threading.Thread(target=self.look, daemon=True)

    def __enter__(self):
        self.thread.start()
        return self

    def __exit__(self, *_):
        self.is_over.set()
        self.thread.join()

    def begin(self, name, seconds, how_far=str):
        """Begins this phase, which may take this long; `how_far` says how far it is."""
        now = time.monotonic()
        with self.lock:
            if self.name:
                self.took.append((self.name, now - self.began))
            self.name, self.began, self.end, self.how_far = name, now, now + seconds, how_far

    def look(self):
        """Prints how far the phase is until the end."""
        told = self.start
        while not self.is_over.wait(1):
            now = time.monotonic()
            with self.lock:
                name, is_late, far = self.name, self.name and now > self.end, self.how_far()
            if is_late:
                self.give_up(name, now)
            if now >= told + EVERY:
                told = now
                print(f"trial: {now - self.start:.0f} s, {name}: {far}", file=sys.stderr, flush=True)

    def give_up(self, name, now):
        """Ends the process, whatever it waits for; all processes that it began end with it."""
        faulthandler.dump_traceback(all_threads=True)
        took = f"{now - self.began:.0f} s"
        print(f"trial: {name} took longer than it may, {took}: nothing from it on is decided", flush=True)
        os._exit(1)

    def told(self):
        """How long each phase took."""
        self.begin(None, 0)
        return ", ".join(f"{name} {seconds:.0f}" for name, seconds in self.took)
