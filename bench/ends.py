#!/usr/bin/env python3
"""Measures `swid collect` and `swid follow` over TCP on this machine, in one run. It is a measurement and no test: no figure makes it fail.

usage: bench/ends.py [PORT]     4070 if not given; the four ports after it are used too

Builds the program first where that is needed. It serves 65,536 records of about 160 octets, from 64 files of 1,024 lines.

first table    a first report of identifiers to several followers at once: the time from their start to their end, the octets that
               the collector sent to all, and those over the time; beside it a plain Python socket pair that carries as many octets
second table   what the collector sends of such a report, in the kind full, to several clients in Python at once: the longest time until
               the first octet, in which the report is made, and the longest from there to the last; beside it the longest that a plain
               socket pair takes for as many octets, with as many pairs at once
third table    sessions one after another: 64 workers with 1,000 sessions each with `swid follow`, and sessions of a Python client that
               asks for one event, one at a time and from 8 threads
fourth table   sessions of 16 threads while a sweep changes all 65,536 records: the longest session, beside the longest without a sweep
fifth table    the memory of the collector after 10 and after 1,010 sessions
"""

import os
import socket
import subprocess
import sys
import tempfile
import threading
import time

TOP = os.path.join(os.path.dirname(os.path.realpath(__file__)), "..")
SWID = os.path.join(TOP, "crates", "swid", "out", "swid")
FILES, LINES = 64, 1024


def batch(kind, body):
    return bytes([2, 0x80, 0, kind]) + (8 + len(body)).to_bytes(4, "big") + body


def message(kind, body):
    return bytes([0x80, 0, 0, 0]) + kind.to_bytes(4, "big") + (12 + len(body)).to_bytes(4, "big") + body


def request(earliest, full=False):
    """An SDATA batch that asks for software identifier events, or for events with whole records, from this one on."""
    flags = bytes.fromhex("00000000" if full else "20000000")
    attribute = bytes.fromhex("000000000000000d00000018") + flags + bytes.fromhex("00000001") + earliest.to_bytes(4, "big")
    pa_tnc = bytes.fromhex("0100000000000001") + attribute
    pa = bytes.fromhex("00000000000000090001") + bytes.fromhex("0001") + pa_tnc
    return batch(2, message(1, pa))


RESULT = batch(3, message(2, bytes(3) + bytes([4])))
CLOSE = batch(6, b"")


def exactly(link, count):
    parts = []
    while count:
        part = link.recv(min(count, 1 << 20))
        if not part:
            raise EOFError
        parts.append(part)
        count -= len(part)
    return b"".join(parts)


def take_batch(link):
    head = exactly(link, 8)
    return head + exactly(link, int.from_bytes(head[4:], "big") - 8)


def session(port, earliest):
    """A session that asks once. The number of octets that came."""
    with socket.create_connection(("127.0.0.1", port)) as link:
        link.setsockopt(socket.IPPROTO_TCP, socket.TCP_NODELAY, 1)
        came = len(take_batch(link))
        link.sendall(request(earliest))
        came += len(take_batch(link))
        link.sendall(RESULT + CLOSE)
        while link.recv(1 << 16):
            pass
    return came


def lasts(link):
    """Takes a batch: how many octets it has, and the time from the first one to the last."""
    first = exactly(link, 1)
    start = time.monotonic()
    head = first + exactly(link, 7)
    count = int.from_bytes(head[4:], "big")
    exactly(link, count - 8)
    return count, time.monotonic() - start


def sent(port):
    """A session that asks for all whole records once: how many octets the report's batch has, and the times that it took."""
    with socket.create_connection(("127.0.0.1", port)) as link:
        take_batch(link)
        start = time.monotonic()
        link.sendall(request(0, full=True))
        count, took = lasts(link)
        made = time.monotonic() - start - took
        link.sendall(RESULT + CLOSE)
        while link.recv(1 << 16):
            pass
    return count, made, took


def at_once(count, each):
    """What that many threads give."""
    given = [None] * count

    def run(at):
        given[at] = each()
    threads = [threading.Thread(target=run, args=(at,)) for at in range(count)]
    for it in threads:
        it.start()
    for it in threads:
        it.join()
    return given


def write_lines(folder, verb, fill):
    names = []
    for number in range(FILES):
        name = os.path.join(folder, f"{number}.lines")
        with open(name, "a", encoding="ascii") as out:
            for line in range(LINES):
                key = line + 1
                body = f"{number:02x}{line:04x}{fill}" + "61" * 97
                out.write(f"{verb} {key} example.com__package-{number}-{line} /usr/lib/package-{number}-{line} {body}\n")
        names.append(name)
    return names


def collect(port, names, *words):
    process = subprocess.Popen([SWID, "collect", "--listen", f"127.0.0.1:{port}", "--epoch", "7", "--cap", "4096", *words, *names],
                               stdout=subprocess.PIPE, stderr=subprocess.PIPE, text=True)
    process.stderr.readline()
    return process


def wait_ready(port):
    """Waits until the first sweep is made, which comes before any session. It takes a session."""
    session(port, 4000000000)


def follow(port, count, *words):
    start = time.monotonic()
    ran = subprocess.run([SWID, "follow", *words, *[f"127.0.0.1:{port}"] * count], capture_output=True, text=True, check=False)
    return time.monotonic() - start, ran


def carried(octets):
    """The time in which a plain socket pair carries that many octets, from the first to the last."""
    ours, theirs = socket.socketpair()
    piece = bytes(1 << 16)

    def give():
        left = octets
        while left:
            part = piece[:min(left, len(piece))]
            theirs.sendall(part)
            left -= len(part)
        theirs.close()
    start = time.monotonic()
    giver = threading.Thread(target=give)
    giver.start()
    exactly(ours, octets)
    took = time.monotonic() - start
    giver.join()
    ours.close()
    return took


def rss(process):
    with open(f"/proc/{process.pid}/status", encoding="ascii") as it:
        return next(int(line.split()[1]) for line in it if line.startswith("VmRSS"))


def first_reports(port, names):
    print("first reports of 65,536 records\n")
    print(f"{'followers':>9} {'ms':>8} {'MB':>8} {'MB a second':>12} {'socket pair':>12} {'ratio':>6}")
    process = collect(port, names, "--workers", "16", "--sessions", "4")
    wait_ready(port)
    octets = session(port, 0)
    used = 2
    for count in (1, 4, 16):
        took, ran = follow(port, count, "--kind", "ids")
        used += count
        assert ran.stdout.count("reports 1 closed") == count, ran.stdout[:300]
        plain = carried(octets * count)
        print(f"{count:9} {took * 1000:8.0f} {octets * count / 1e6:8.1f} {octets * count / 1e6 / took:12.1f} {octets * count / 1e6 / plain:12.1f} {took / plain:6.1f}")
    finish(process, port, 64 - used)


def finish(process, port, left):
    """Uses up the sessions that are left, and waits for the end."""
    def give():
        try:
            socket.create_connection(("127.0.0.1", port)).close()
        except OSError:
            pass
    for _ in range(left):
        give()
    return process.communicate()[0]


def sent_reports(port, names):
    print("\nwhole records, as they are sent\n")
    print(f"{'clients':>9} {'MB each':>8} {'first octet, ms':>16} {'to the last, ms':>16} {'socket pair, ms':>16} {'ratio':>6}")
    process = collect(port, names, "--workers", "16", "--sessions", "4")
    wait_ready(port)
    used = 1
    for count in (1, 4, 16):
        reports = at_once(count, lambda: sent(port))
        used += count
        octets = reports[0][0]
        made, took = max(it[1] for it in reports), max(it[2] for it in reports)
        plain = max(at_once(count, lambda: carried(octets)))
        print(f"{count:9} {octets / 1e6:8.1f} {made * 1000:16.0f} {took * 1000:16.1f} {plain * 1000:16.1f} {took / plain:6.1f}")
    finish(process, port, 64 - used)


def many_sessions(port, names):
    print("\nsessions one after another\n")
    print(f"{'what':>40} {'sessions':>9} {'s':>7} {'a second':>9}")
    process = collect(port, names[:1], "--workers", "64", "--sessions", "1000")
    took, ran = follow(port, 64, "--sessions", "1000")
    closed = ran.stdout.count(" closed\n")
    said = process.communicate()[0]
    print(f"{'64 workers, swid follow':>40} {closed:9} {took:7.1f} {closed / took:9.0f}")
    print(f"{'of these with a fault':>40} {64000 - closed + said.count('link-fault'):9}")
    process = collect(port, names[:1], "--workers", "8", "--sessions", "1000")
    session(port, 4000000000)
    for threads in (1, 8):
        each = 500 if threads == 1 else 900
        start = time.monotonic()
        workers = [threading.Thread(target=lambda: [session(port, 1024) for _ in range(each)]) for _ in range(threads)]
        for it in workers:
            it.start()
        for it in workers:
            it.join()
        took = time.monotonic() - start
        print(f"{f'one event, {threads} Python clients':>40} {threads * each:9} {took:7.1f} {threads * each / took:9.0f}")
    finish(process, port, 8000 - 1 - 500 - 7200)


def beside_a_sweep(port, folder, names):
    print("\nsessions beside a sweep that changes 65,536 records\n")
    process = collect(port, names, "--workers", "16", "--sessions", "100000", "--sweeps", "1000000")
    wait_ready(port)
    longest, stop = [0.0], threading.Event()

    def watch():
        while not stop.is_set():
            start = time.monotonic()
            session(port, 4000000000)
            longest[0] = max(longest[0], time.monotonic() - start)
    clients = [threading.Thread(target=watch) for _ in range(16)]
    for client in clients:
        client.start()
    time.sleep(3)
    quiet, longest[0] = longest[0], 0.0
    write_lines(folder, "xml", "ff")
    time.sleep(5)
    print(f"longest session without a sweep: {quiet * 1000:.1f} ms")
    print(f"longest session beside it: {longest[0] * 1000:.1f} ms")
    stop.set()
    for client in clients:
        client.join()
    process.kill()
    process.wait()


def memory(port, names):
    print("\nmemory of the collector, KiB\n")
    process = collect(port, names, "--workers", "1", "--sessions", "2000")
    for _ in range(10):
        session(port, 4000000000)
    ten = rss(process)
    for _ in range(1000):
        session(port, 4000000000)
    print(f"after 10 sessions: {ten}, after 1,010: {rss(process)}")
    process.kill()
    process.wait()


def main():
    port = int(sys.argv[1]) if len(sys.argv) > 1 else 4070
    subprocess.run([os.path.join(TOP, "swid"), "mirror", "ids"], stdin=subprocess.DEVNULL, stdout=subprocess.DEVNULL, check=True)
    with tempfile.TemporaryDirectory() as folder:
        names = write_lines(folder, "xml", "00")
        first_reports(port, names)
        sent_reports(port + 1, names)
        many_sessions(port + 2, names)
        beside_a_sweep(port + 3, folder, names)
        memory(port + 4, names)


main()
