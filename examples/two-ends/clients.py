"""The clients of hostile.py, whose kinds are described there, and how many of each kind come.

Each is given a connection, and answers whether it left in the middle of a report.
"""

import socket
import struct
import threading
import time


def request(flags):
    """An SDATA batch that asks for an inventory with these flags, in hexadecimal digits."""
    return bytes.fromhex(
        "02800002 00000040 80000000 00000001 00000038 00000000 00000009 00010001"
        f"01000000 00000001 00000000 0000000d 00000018 {flags}000000 00000001 00000000"
    )


IDENTIFIERS, WHOLE = request("20"), request("00")


def connect(port):
    made = socket.socket()
    # A small buffer, so that what is in it and in the collector's is far less than the report.
    made.setsockopt(socket.SOL_SOCKET, socket.SO_RCVBUF, 65536)
    made.settimeout(60)
    made.connect(("127.0.0.1", port))
    return made


def take(made, count):
    while count:
        came = made.recv(count)
        if not came:
            raise ConnectionError("the collector closed")
        count -= len(came)


def silent(made):
    take(made, 8)
    time.sleep(1.5)


def slow(made):
    take(made, 8)
    for octet in IDENTIFIERS[:3]:
        made.sendall(bytes([octet]))
        time.sleep(0.5)


def fault(made):
    take(made, 8)
    made.sendall(b"\x03" + IDENTIFIERS[1:])
    take(made, 8)


def endless(made):
    take(made, 8)
    made.sendall(bytes.fromhex("02800002 01000000"))
    for _ in range(64):
        made.sendall(bytes(65536))


def cut(made):
    take(made, 8)
    made.sendall(IDENTIFIERS[:40])


def leave(made):
    made.sendall(WHOLE)
    take(made, 65536)
    return True


def reset(made):
    leave(made)
    made.setsockopt(socket.SOL_SOCKET, socket.SO_LINGER, struct.pack("ii", 1, 0))
    return True


def deaf(made):
    made.sendall(WHOLE)
    # To look at what came is not to read it: the room that it takes stays taken.
    while len(made.recv(4096, socket.MSG_PEEK)) < 4096:
        time.sleep(0.05)
    time.sleep(1)
    return True


def gone(made):
    pass


# How many of each kind come beside the followers.
COUNTS = {
    silent: 16, slow: 16, fault: 42, endless: 30, cut: 42, reset: 4, leave: 4, deaf: 4, gone: 42,
}
HOLDS = {silent, slow, deaf}
MIDDLE = {reset, leave, deaf}
room = threading.Semaphore(3)
order = threading.Semaphore(5)


def attack(port, kind, left=None):
    """A client of this kind. Its address goes to `left` where it left in the middle of a report."""
    with room if kind in HOLDS else order:
        try:
            with connect(port) as made:
                here = f"127.0.0.1:{made.getsockname()[1]}"
                if kind(made) and left is not None:
                    left.append(here)
        except OSError as error:
            print(f"client {kind.__name__}: {error}", flush=True)
