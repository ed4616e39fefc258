#!/usr/bin/env python3
"""Clients that ask and leave, until the end of their input tells them to stop: leavers.py PORT WORD... One after
another connects, sends the command of these words five times, and closes without reading. It says when they begin.

The measurement beside them runs in another process, so that they take no turn of its interpreter."""
import contextlib
import os
import socket
import sys
import threading

sys.dont_write_bytecode = True
import served

TIMES = 5


def main():
    port, sent = int(sys.argv[1]), served.packed(*sys.argv[2:]) * TIMES
    # The clients beside them get the processors first.
    os.nice(10)

    def again():
        while True:
            with contextlib.suppress(OSError), socket.create_connection(("127.0.0.1", port), served.SECONDS) as one:
                one.sendall(sent)

    threading.Thread(target=again, daemon=True).start()
    print("begun", flush=True)
    sys.stdin.read()


if __name__ == "__main__":
    main()
