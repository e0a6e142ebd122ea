#!/usr/bin/env python3
"""Runs `rt ci --anew` and prints what each crate takes of it, in processor minutes: proofs, tests and edits.

usage: bench/gate_shares.py [NAME..]

The kit prints no times, so its processes are looked at every two seconds; what a process takes after the last look is missed, so the
shares are a little less than the whole, which is printed last. Only the last line is a measure of the gate, and only on a machine
that does nothing else.
"""

import collections
import os
import resource
import subprocess
import sys
import time

EVERY_SECONDS = 2
TICKS = os.sysconf("SC_CLK_TCK")


def read(path):
    try:
        with open(path, "rb") as file:
            return file.read()
    except OSError:
        return b""


def seen(pid):
    """The crate, the kind of work, and the seconds so far of a process of the prover; None for any other process."""
    words = read(f"/proc/{pid}/cmdline").decode(errors="replace").split("\0")
    if "--crate-name" not in words:
        return None
    try:
        folder = os.readlink(f"/proc/{pid}/cwd")
    except OSError:
        return None
    if "/rt-edit" in folder:
        kind = "edits"
    elif "--test" in words:
        kind = "tests"
    else:
        kind = "proofs"
    fields = read(f"/proc/{pid}/stat").rpartition(b")")[2].split()
    if len(fields) < 20:
        return None
    return words[words.index("--crate-name") + 1], kind, (int(fields[11]) + int(fields[12])) / TICKS, fields[19]


def sample(run):
    """The seconds of each process of the prover while the run lasts."""
    seconds = {}
    while run.poll() is None:
        for pid in filter(str.isdigit, os.listdir("/proc")):
            found = seen(pid)
            if found:
                crate, kind, so_far, start = found
                seconds[pid, start] = crate, kind, so_far
        time.sleep(EVERY_SECONDS)
    return seconds


def main(names):
    run = subprocess.Popen(["rt", "ci", "--anew", *names])
    shares = collections.defaultdict(lambda: collections.defaultdict(float))
    for crate, kind, taken in sample(run).values():
        shares[crate][kind] += taken / 60
    print("| crate | proofs | tests | edits | all |")
    print("| --- | ---: | ---: | ---: | ---: |")
    for crate, kinds in sorted(shares.items(), key=lambda share: -sum(share[1].values())):
        parts = [kinds["proofs"], kinds["tests"], kinds["edits"]]
        print(f"| {crate} | " + " | ".join(f"{part:.1f}" for part in [*parts, sum(parts)]) + " |")
    used = resource.getrusage(resource.RUSAGE_CHILDREN)
    print(f"whole: {(used.ru_utime + used.ru_stime) / 60:.0f} processor minutes")
    return run.returncode


if __name__ == "__main__":
    sys.exit(main(sys.argv[1:]))
