#!/usr/bin/env python3
"""The limits of a session: 600 seconds in which nothing comes, and 4,294,967,295 octets.

usage: limits.py SWID [PORT]     4070 if no port is given

One client sends nothing. The other sends batches of 16 MiB, each of one message of a type that
nobody knows and that may be skipped (RFC 5793, section 4.2), until the connection ends. `SWID
collect` serves both side by side, and ends either session at its limit.

Prints a line for each thing that is as it should be, and `wrong` for any other. The last line is
'N passed, M failed', and the status 0 where none failed. It takes ten minutes.
"""

import socket
import subprocess
import sys
import threading
import time

IDLE = 600

# An SDATA batch of 16 MiB, with one message of vendor 1 and type 1.
LENGTH = 1 << 24
BATCH = (bytes.fromhex("02800002") + LENGTH.to_bytes(4, "big")
         + bytes.fromhex("00000001 00000001") + (LENGTH - 8).to_bytes(4, "big")
         + bytes(LENGTH - 20))

failed = []


def say(name, good, detail=""):
    failed.append(not good)
    print(f"{'passed' if good else 'wrong'} {name}{'' if good else f': {detail}'}", flush=True)


def silent(port):
    """After how many seconds the collector closed."""
    began = time.monotonic()
    with socket.create_connection(("127.0.0.1", port)) as made:
        while made.recv(4096):
            pass
    return time.monotonic() - began


def empty(made):
    """Reads what is answered, so that the collector never waits for room."""
    try:
        while made.recv(4096):
            pass
    except OSError:
        pass


def busy(port):
    with socket.create_connection(("127.0.0.1", port)) as made:
        reads = threading.Thread(target=empty, args=(made,))
        reads.start()
        try:
            while True:
                made.sendall(BATCH)
        except OSError:
            # The collector closed.
            pass
        reads.join()


def main():
    swid, port = sys.argv[1], int(sys.argv[2]) if len(sys.argv) > 2 else 4070
    ran = subprocess.Popen(
        [swid, "collect", "--listen", f"127.0.0.1:{port}", "--epoch", "7"],
        stdout=subprocess.PIPE, stderr=subprocess.PIPE, text=True)
    try:
        heard = ran.stderr.readline()
        say("it says where it listens", heard == f"swid: listening on 127.0.0.1:{port}\n", heard)
        other = threading.Thread(target=busy, args=(port,))
        other.start()
        took = silent(port)
        other.join()
        said, errors = ran.communicate(timeout=100)
    finally:
        ran.kill()
    lines = [line for line in said.split("\n") if line.startswith("session ")]
    ends = sorted(line.split(" ", 4)[4] for line in lines)
    say("their ends", ends == ["enough", f"idle-out {IDLE}"], said)
    why = sorted(line.split(" ", 4)[4] for line in errors.split("\n") if line)
    wanted = ["more octets came than a session may have", f"nothing came for {IDLE} seconds"]
    say("standard error says why", why == wanted, errors)
    good = IDLE - 1 < took < IDLE + 30
    say("the silent client was left after its time, and not before", good, took)
    say("the status is 0, since nothing failed", ran.returncode == 0, ran.returncode)
    print(f"{len(failed) - sum(failed)} passed, {sum(failed)} failed")
    return any(failed)


sys.exit(main())
