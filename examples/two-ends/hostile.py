#!/usr/bin/env python3
"""Clients that do what none should, and followers beside them that have to be served to their end.

usage: hostile.py SWID [PORT]     4060 if no port is given; the four ports after it are used too

There are nine kinds of clients. All except `deaf` and `gone` take the batch that the collector
begins with.

silent     sends nothing
slow       sends the first three octets of a request, one at a time
fault      sends a batch with a fault in its first octet
endless    sends 4 MiB of a batch of 16 MiB
cut        sends 40 octets of a request
reset      asks for whole records, and resets the connection in the middle of the report
leave      closes it there
deaf       asks for whole records, and never reads the report, nor anything else
gone       closes at once

The report of whole records has some 12 MB, which is several times what the sockets hold: where the
client reads no more, some 3 MB are under way.

1. Each kind except `gone` comes to `SWID collect` alone. Each session has the end of its kind, and
   the exit statuses are those of docs/rules/commands.md.
2. `SWID collect` serves with eight workers. `SWID follow` follows it alone, once in either kind of
   reports. Then 200 clients come, at most eight at once. Three of these eight are silent, slow or
   deaf, and keep a worker busy for a second or more. Three followers come beside them. Standard
   output, standard error and exit status of each are to the octet those of the one that was alone.
   None of these has a time or a port, and the inventory does not change: so nothing may differ.
   Each of 208 sessions has its end, and standard error says why it ended if it was not closed.
3. A listener that can't be opened, an address that nobody listens on, a file that is missing, a
   source with a bad line, and a follower of two collectors.

Prints a line for each thing that is as it should be, and `wrong` for any other. The last line is
'N passed, M failed', and the status 0 where none failed. It takes half a
minute, or up to two on a busy machine.
"""

import hashlib
import os
import socket
import subprocess
import sys
import tempfile
import threading
import time

# No compiled files beside these two.
sys.dont_write_bytecode = True

from clients import (
    COUNTS, MIDDLE, attack, cut, deaf, endless, fault, gone, leave, reset, silent, slow,
)

RECORDS = 1000
BODY = "ab" * 12000
WORKERS, SESSIONS = 8, 26

passed, failed = 0, 0
started = []


def say(name, good, detail=""):
    global passed, failed
    passed, failed = passed + bool(good), failed + (not good)
    print(f"{'passed' if good else 'wrong'} {name}{'' if good else f': {detail}'}", flush=True)


# The program.


def collect(swid, port, *words):
    """`collect` with these words, once it has said where it listens."""
    ran = subprocess.Popen(
        [swid, "collect", "--listen", f"127.0.0.1:{port}", "--epoch", "7", *words],
        stdout=subprocess.PIPE, stderr=subprocess.PIPE, bufsize=0)
    started.append(ran)
    # Without a buffer no octet after the line is taken.
    heard = ran.stderr.readline().decode()
    say("it says where it listens", heard == f"swid: listening on 127.0.0.1:{port}\n", heard)
    return ran


def finish(ran):
    """What a collector printed, and what it said after its first line."""
    return [text.decode() for text in ran.communicate(timeout=100)]


def run(*words):
    return subprocess.run(words, capture_output=True, text=True, timeout=100, check=False)


def follow(swid, port, kind="ids"):
    ran = run(swid, "follow", "--kind", kind, f"127.0.0.1:{port}")
    return ran.returncode, ran.stdout, ran.stderr


def packages(folder):
    """The file that is served."""
    name = os.path.join(folder, "packages.lines")
    with open(name, "w", encoding="ascii") as out:
        for key in range(1, RECORDS + 1):
            out.write(f"xml {key} package-{key} \\e {BODY}\n")
    return name


def mirrored(kind):
    """What a follower of that file prints."""
    body = bytes.fromhex(BODY)
    end = "-" if kind == "ids" else f"{len(body)}:{hashlib.sha256(body).hexdigest()}"
    lines = ["session 1.1 reports 1 closed", "endpoint 1", f"mirror 7 {RECORDS} {RECORDS}"]
    lines += [f"record {key} 0/0 0 package-{key} \\e {end}" for key in range(1, RECORDS + 1)]
    return "".join(f"{line}\n" for line in lines)


def sessions(said):
    """The words after the number of reports, of each session in a text of a collector."""
    return [line.split(" ", 4)[4] for line in said.split("\n") if line.startswith("session ")]


# What standard error says of sessions that ended so.
REASONS = {
    "refused 4 0": "a batch of the peer was refused: Version Not Supported at octet 0",
    "ended": "the connection ended without a CLOSE",
    "link-fault": "the connection failed",
}


def reason(end):
    """What standard error says of a session with this end."""
    if end.startswith("torn "):
        return f"the connection ended after {end[5:]} octets of a batch"
    return REASONS[end]


def says_ends(said, errors):
    """Whether standard error says why each session ended that was not closed, and of no other."""
    lines = [line.split(" ", 4) for line in said.split("\n") if line.startswith("session ")]
    wanted = [f"swid: session {words[1]} ended: {reason(words[4])}"
              for words in lines if words[4] != "peer-closed"]
    heard = [line for line in errors.split("\n") if line.startswith("swid: session ")]
    return sorted(heard) == sorted(wanted)


# What is tried.

# Kinds with the ends of their sessions, and the exit status of a collector that has these alone.
ALONE = [
    (0, {silent: "ended"}),
    (1, {slow: "torn 3", fault: "refused 4 0", endless: "torn 4194312", cut: "torn 40"}),
    (3, {reset: "link-fault", leave: "link-fault", deaf: "link-fault"}),
]


def one_by_one(swid, port, lines):
    """Each kind alone, one after another where the status is the same."""
    for status, ends in ALONE:
        files = [lines] if MIDDLE & set(ends) else []
        ran = collect(swid, port, "--workers", "1", "--sessions", str(len(ends)), *files)
        for kind in ends:
            attack(port, kind)
        said, errors = finish(ran)
        names = ", ".join(kind.__name__ for kind in ends)
        good = sessions(said) == list(ends.values()) and ran.returncode == status
        say(f"{names}: their ends, and status {status}", good, f"{ran.returncode} {said} {errors}")
        say(f"{names}: standard error says why", says_ends(said, errors), errors)


def besiege(swid, port, lines):
    ran = collect(swid, port, "--workers", str(WORKERS), "--sessions", str(SESSIONS), lines)
    alone = {kind: follow(swid, port, kind) for kind in ("ids", "full")}
    for kind, answer in alone.items():
        good = answer == (0, mirrored(kind), "")
        say(f"a follower alone has the inventory, {kind}", good, answer)
    left = []
    kinds = [kind for at in range(max(COUNTS.values())) for kind in COUNTS if at < COUNTS[kind]]
    clients = [threading.Thread(target=attack, args=(port, kind, left)) for kind in kinds]
    for client in clients:
        client.start()
    served = len(alone)
    for kind in ("ids", "full", "ids"):
        time.sleep(1)
        beside = any(client.is_alive() for client in clients)
        answer = follow(swid, port, kind)
        good = beside and answer == alone[kind]
        say(f"a follower beside them prints what it printed alone, {kind}", good, answer)
        served += 1
    for client in clients:
        client.join()
    for _ in range(WORKERS * SESSIONS - len(clients) - served):
        attack(port, gone)
    said, errors = finish(ran)
    judge(said, errors, left, served)
    say("the status is 3, since connections failed", ran.returncode == 3, ran.returncode)


def judge(said, errors, left, served):
    """Whether what the besieged collector printed and said is as it should be."""
    ends = {}
    for end in sessions(said):
        name = end.split(" ")[0]
        ends[name] = ends.get(name, 0) + 1
    print("ends:", ends)
    whole = {
        "refused": COUNTS[fault],
        "torn": COUNTS[slow] + COUNTS[endless] + COUNTS[cut],
        "peer-closed": served,
    }
    total = WORKERS * SESSIONS
    failures = ends.get("link-fault", 0)
    say(f"each of {total} sessions has its end", sum(ends.values()) == total, ends)
    for name, count in whole.items():
        say(f"{count} sessions are {name}", ends.get(name) == count, ends)
    # A client that closes at once may do so before or after the collector's first batch comes.
    quiet = ends.get("ended", 0)
    good = quiet >= COUNTS[silent] and sum(whole.values()) + quiet + failures == total
    say("those of silent clients ended, and the links of all others failed", good, ends)
    say("the inventory stands", f"\nbook 7 {RECORDS} {RECORDS}\n" in said, said[-200:])
    say("standard error says why each session ended that was not closed",
        says_ends(said, errors), errors)
    named = {"read from": [], "write to": []}
    for line in errors.split("\n"):
        for verb, peers in named.items():
            if line.startswith(f"swid: cannot {verb} "):
                peers.append(line.split(" ")[4].rstrip(":"))
    named_once = sum(len(peers) for peers in named.values()) == failures
    good = named_once and errors.count("\n") == failures + total - served
    say("each connection that failed is named once, and nothing else is said", good, errors)
    middle = sum(COUNTS[kind] for kind in MIDDLE)
    good = sorted(named["write to"]) == sorted(left) and len(left) == middle
    say("the report stopped at each client that left in the middle of it", good, errors)


def refusals(swid, port, folder):
    with socket.create_server(("127.0.0.1", port)):
        ran = run(swid, "collect", "--listen", f"127.0.0.1:{port}", "--epoch", "7")
    good = ran.returncode == 3 and "door 1 failed\ndoor 2 failed\n" in ran.stdout
    good = good and ran.stderr.startswith(f"swid: cannot listen on 127.0.0.1:{port}: ")
    say("a listener that can't be opened", good, ran.stdout + ran.stderr)
    status, said, errors = follow(swid, port)
    good = status == 3 and said == "door 1 failed\nendpoint 1\nmirror none\n"
    good = good and errors.startswith(f"swid: cannot connect to 127.0.0.1:{port}: ")
    say("an address that nobody listens on", good, said + errors)
    bad = os.path.join(folder, "bad.lines")
    with open(bad, "w", encoding="ascii") as out:
        out.write("xml 1 a \\e 00\nxml 2 b \\e 00\nxml 03 c \\e 00\n")
    for name, stopped, status, words, why, records in (
        (os.path.join(folder, "missing.lines"), "source-failed", 3, "swid: cannot read ",
         "a call of the outside failed", 0),
        (bad, "bad-line", 1, "bad.lines:3: ", "line 3 is no item", 2),
    ):
        ran = collect(swid, port, "--workers", "1", name)
        follow(swid, port)
        said, errors = finish(ran)
        good = ran.returncode == status and words in errors
        good = good and errors.endswith(f"\nswid: sweeping stopped: source 0: {why}\n")
        good = good and said == (
            f"session 1.1 reports 1 peer-closed\nswept {records} 0 0 0\n"
            f"stopped {stopped}\nbook 7 {records} {records}\n")
        say(f"{stopped} ends the sweeping alone, and status {status}", good, said + errors)


def two_inventories(swid, port, folder):
    """Two collectors, the first over two files, and one follower at both."""
    names = []
    for name in ("first", "second", "third"):
        names.append(os.path.join(folder, f"{name}.lines"))
        with open(names[-1], "w", encoding="ascii") as out:
            out.write(f"xml 1 {name} \\e 00\n")
    both = [collect(swid, at, "--workers", "1", *files)
            for at, files in ((port, names[:2]), (port + 1, names[2:]))]
    ran = run(swid, "follow", f"127.0.0.1:{port}", f"127.0.0.1:{port + 1}")
    for collected in both:
        finish(collected)
    ends = ran.stdout.split("endpoint ")[1:]
    mirrors = [[line for line in end.split("\n") if line.startswith("mirror ")] for end in ends]
    sources = [line.split()[3:5] for line in ran.stdout.split("\n") if line.startswith("record ")]
    good = mirrors == [["mirror 7 2 2"], ["mirror 7 1 1"]]
    good = good and sources == [["0", "first"], ["1", "second"], ["0", "third"]]
    say("addresses and files are taken in their order", good, ran.stdout + ran.stderr)
    statuses = [ran.returncode] + [collected.returncode for collected in both]
    say("the status of all three is 0", statuses == [0, 0, 0], statuses)


def main():
    swid, port = sys.argv[1], int(sys.argv[2]) if len(sys.argv) > 2 else 4060
    try:
        with tempfile.TemporaryDirectory() as folder:
            lines = packages(folder)
            one_by_one(swid, port, lines)
            besiege(swid, port + 1, lines)
            refusals(swid, port + 2, folder)
            two_inventories(swid, port + 3, folder)
    finally:
        for ran in started:
            if ran.poll() is None:
                ran.kill()
    print(f"{passed} passed, {failed} failed")
    return failed > 0


sys.exit(main())
