"""Says how far a run is: the parts that run, how many of how many parts are done, the minutes passed, and an estimate
of those left.

On a terminal it is one line that changes; elsewhere, as in CI, a line a minute.
"""
import shutil
import sys
import threading
import time

SHOWN = 4


class Progress:
    """`load` returns the names of the parts that run, the parts done and all of them, and the seconds left, as
    `Runner.load` does."""

    def __init__(self, load, out=sys.stdout):
        self.load, self.out, self.began = load, out, time.time()
        self.is_terminal, self.is_over, self.turn = out.isatty(), threading.Event(), threading.Lock()
        self.every = 1 if self.is_terminal else 60

    def __enter__(self):
        self.thread = threading.Thread(target=self.tell_often, daemon=True)
        self.thread.start()
        return self

    def __exit__(self, *_):
        self.is_over.set()
        self.thread.join()
        self.clear()

    def tell_often(self):
        while not self.is_over.wait(self.every):
            with self.turn:
                line = self.line()
                self.out.write(f"\r\033[K{line}" if self.is_terminal else f"{line}\n")
                self.out.flush()

    def line(self):
        running, done, of, left = self.load()
        minutes = (time.time() - self.began) / 60
        names = ", ".join(running[:SHOWN]) + (" .." if len(running) > SHOWN else "") or "nothing"
        told = f"[{minutes:.0f} min] {done} of {of} parts done, about {max(left / 60, 1):.0f} min left; now: {names}"
        return told[: shutil.get_terminal_size((160, 1)).columns - 1] if self.is_terminal else told

    def clear(self):
        if self.is_terminal:
            self.out.write("\r\033[K")
            self.out.flush()

    def say(self, text):
        """Prints whole lines between two of its own."""
        with self.turn:
            self.clear()
            self.out.write(text.rstrip("\n") + "\n")
            self.out.flush()
