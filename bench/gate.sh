#!/usr/bin/env bash
# Measures the merge gate: runs `rt ci` in a fresh clone, and prints the time of the processor, user
# and system, that each crate takes. It is a measurement and no test: no time makes it fail. Its
# status is that of `rt ci`.
#
# usage: bench/gate.sh
#
# The clone has what is committed, in a temporary folder ($TMPDIR or /tmp), which is removed at the
# end. What `rt ci` says goes to standard error. Needs git and python3.
#
# Columns, in seconds:
#   proof  the proof of the crate
#   tests  the proof of its tests with their compilation
#   seed   the checks of the whole crate that its must-fail edits begin with, and one after them
#   edits  the checks of its must-fail edits
#   rest   compiling and linking the program, and running the program and the tests
#   sum    the sum of these
#
# The row `rt` has what `rt ci` takes itself, with programs that are of no one crate. The last line
# has the sum, the time of the clock, and the last line of `rt ci`.
#
# Where it is ended by SIGTERM or SIGINT, it ends `rt ci`, prints what was counted until then, and
# its status is 143 or 130.
#
# Every 0.2 seconds the processes below `rt ci` are looked at in /proc. One that has ended counts as
# it was last seen, with what was charged to `rt ci` since, which those that ended meanwhile share.
# So the last line is exact, and a row nearly so.

set -u

top=$(dirname -- "$(readlink -f -- "${BASH_SOURCE[0]}")")/..
if (($# > 0)); then
    echo "usage: bench/gate.sh" >&2
    exit 2
fi

exec python3 - "$top" <<'END'
import os, re, signal, subprocess, sys, tempfile, threading, time
from collections import defaultdict

KINDS = ("proof", "tests", "seed", "edits", "rest")
TICKS = os.sysconf("SC_CLK_TCK")


class Ended(Exception):
    """A signal that ends the run."""

    def __init__(self, number):
        self.number = number


def end(number, _):
    raise Ended(number)


def processes(first):
    """The parent of each process, its own ticks, and those of the children that it has waited for. `first` is looked at first."""
    found = {}
    for pid in (first, *map(int, filter(str.isdigit, os.listdir("/proc")))):
        try:
            with open(f"/proc/{pid}/stat") as it:
                fields = it.read().rpartition(")")[2].split()
        except OSError:
            continue
        user, system, waited_user, waited_system = map(int, fields[11:15])
        found.setdefault(pid, (int(fields[1]), user + system, waited_user + waited_system))
    return found


def ticks(pid, found, children):
    """The ticks of a process and of all below it."""
    _, own, waited = found[pid]
    return own + waited + sum(ticks(it, found, children) for it in children[pid])


def task(pid):
    """The crate and the kind of a process that `rt ci` started; None where it is of no crate, or has gone."""
    try:
        with open(f"/proc/{pid}/cmdline", "rb") as it:
            words = it.read().decode(errors="replace").split("\0")[:-1]
        folder = os.path.basename(os.readlink(f"/proc/{pid}/cwd"))
    except OSError:
        return None
    for program in filter(None, (re.search(r"/rt-run-\d+-[^/]*/bin/(\w+?)(_tests)?$", it) for it in words)):
        return program[1], "rest"
    names = [os.path.basename(it) for it in words]
    if "rattle-link" in names:
        return folder, "rest"
    if "rattle" not in names or "--crate-name" not in words:
        return None
    crate, verb = words[words.index("--crate-name") + 1], words[names.index("rattle") + 1]
    if "--crate-checked" in words:
        return crate, "rest"
    if "--test" in words:
        return crate, "tests"
    if "--incremental" in words:
        return crate, "seed" if words[words.index("--incremental") + 1].endswith("/seed") else "edits"
    # (the proof of a program keeps what it checked, for the compilers)
    return crate, "edits" if verb == "check" and "-o" not in words else "proof"


def watch(pid, ended, spent):
    """Adds what the processes below `pid` take to what is spent, by crate and kind, until it has ended."""
    seen, tasks, counted = {}, {}, 0
    while not ended.wait(0.2):
        found, children = processes(pid), defaultdict(list)
        if pid not in found:
            continue
        for it, (parent, _, _) in found.items():
            children[parent].append(it)
        now = {it: ticks(it, found, children) for it in children[pid]}
        gone = [it for it in seen if it not in now]
        late = max(0, found[pid][2] - counted - sum(seen[it] for it in gone))
        for it in gone:
            whole = seen.pop(it) + late // len(gone)
            spent[tasks.pop(it)] += whole
            counted += whole
        for it in now:
            tasks[it] = task(it) or tasks.get(it)
        seen.update(now)
    for it in seen:
        spent[tasks[it]] += seen[it]


def gate(spent):
    """Runs `rt ci`, and gives its status, its last line, and the seconds of the processor."""
    rt = subprocess.Popen(["rt", "ci"], stdin=subprocess.DEVNULL, stdout=subprocess.PIPE, text=True, errors="replace")
    ended, last = threading.Event(), ""
    watcher = threading.Thread(target=watch, args=(rt.pid, ended, spent))
    watcher.start()
    status = None
    try:
        for last in rt.stdout:
            print(last, end="", file=sys.stderr, flush=True)
    except Ended as signal_seen:
        rt.terminate()
        status = 128 + signal_seen.number
    finally:
        _, ended_with, usage = os.wait4(rt.pid, 0)
        rt.returncode = os.waitstatus_to_exitcode(ended_with)
        ended.set()
        watcher.join()
    return rt.returncode if status is None else status, last.strip(), usage.ru_utime + usage.ru_stime


def show(spent, whole):
    with open("crates.txt") as it:
        crates = [line.split(":")[0].split()[0] for line in it if ":" in line and not line.startswith("#")]
    rows = [(it, [spent[it, kind] / TICKS for kind in KINDS]) for it in crates if any(spent[it, kind] for kind in KINDS)]
    rows.append(("all crates", [sum(row[at] for _, row in rows) for at in range(len(KINDS))]))
    print(f"{'crate':<18}" + "".join(f"{it:>9}" for it in (*KINDS, "sum")))
    for name, row in rows:
        print(f"{name:<18}" + "".join(f"{it:9.1f}" for it in (*row, sum(row))))
    print(f"{'rt':<18}{'':45}{whole - sum(rows[-1][1]):9.1f}")


for number in (signal.SIGTERM, signal.SIGINT):
    signal.signal(number, end)
top = sys.argv[1]
with tempfile.TemporaryDirectory(prefix="gate-") as folder:
    subprocess.run(["git", "clone", "--quiet", "--", top, f"{folder}/clone"], check=True, stdin=subprocess.DEVNULL)
    os.chdir(f"{folder}/clone")
    start, spent = time.monotonic(), defaultdict(int)
    status, last, whole = gate(spent)
    show(spent, whole)
    print(f"{whole:.1f} s of the processor, {time.monotonic() - start:.1f} s by the clock: {last}", flush=True)
    os.chdir("/")
sys.exit(status)
END
