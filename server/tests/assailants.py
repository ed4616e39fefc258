#!/usr/bin/env python3
"""Clients that begin TLS with bad intent, until the end of their input tells them to stop: assailants.py PORT HOW COUNT
[FILE]. It says when they begin. So many threads connect again and again, and do this:

    chain    a handshake in which they show the certificates of FILE, with its key
    bare     a handshake in which they show none
    alert    an alert that closes the connection, in place of a handshake, which they keep open then
    hello    the first message of a handshake, and the alert
    stall    nothing, or half of that message, by turns; they stay until the other side ends the connection

The measurement beside them runs in another process, so that they take no turn of its interpreter."""
import contextlib
import os
import random
import socket
import ssl
import sys
import threading
import time

HOST = "127.0.0.1"
CLOSE_NOTIFY = bytes.fromhex("15030300020100")
# How long a connection lasts if the other side doesn't end it, and the pause before the next one.
LASTS, PAUSE = 1.0, 0.01
# The same for those that stall. They rest for this time on average, because they fill places by their number, and
# needn't come faster than others can be met.
STAYS, RESTS = 60.0, 2.0


def context(file):
    """Shows the certificates of this file, and accepts any certificate."""
    found = ssl.SSLContext(ssl.PROTOCOL_TLS_CLIENT)
    found.check_hostname, found.verify_mode = False, ssl.CERT_NONE
    if file:
        found.load_cert_chain(file)
    return found


def hello():
    """Returns the first message of a TLS 1.2 handshake."""
    tls = context(None)
    tls.maximum_version = ssl.TLSVersion.TLSv1_2
    out = ssl.MemoryBIO()
    with contextlib.suppress(ssl.SSLWantReadError):
        tls.wrap_bio(ssl.MemoryBIO(), out).do_handshake()
    return out.read()


def once(port, how, tls, begun):
    with socket.create_connection((HOST, port), 5) as one:
        one.settimeout(LASTS)
        if tls:
            with tls.wrap_socket(one) as met:
                met.recv(1)
        else:
            one.sendall(begun)
            while one.recv(4096):
                pass


def stall(port, begun):
    with socket.create_connection((HOST, port), 5) as one:
        one.settimeout(STAYS)
        one.sendall(begun)
        while one.recv(4096):
            pass


def main():
    port, how, count, file = int(sys.argv[1]), sys.argv[2], int(sys.argv[3]), [*sys.argv[4:], None][0]
    # The clients beside them get the processors first.
    os.nice(10)
    tls = context(file) if how in ("chain", "bare") else None
    begun = {"alert": CLOSE_NOTIFY, "hello": hello() + CLOSE_NOTIFY}.get(how)
    half = hello()[:100]

    def again(number):
        while True:
            with contextlib.suppress(OSError):
                if how == "stall":
                    stall(port, half if number % 2 else b"")
                else:
                    once(port, how, tls, begun)
            time.sleep(random.uniform(0, 2 * RESTS) if how == "stall" else PAUSE)

    for number in range(count):
        threading.Thread(target=again, args=(number,), daemon=True).start()
    print("begun", flush=True)
    sys.stdin.read()


if __name__ == "__main__":
    main()
