"""What the benches share: the proved program, the least processor time of a run of it, and the texts that it is run on."""

import os
import resource
import subprocess
import sys

TOP = os.path.dirname(os.path.dirname(os.path.abspath(__file__)))
PROGRAM = os.path.join(TOP, "crates", "turbomap", "out", "turbomap")


def processor_seconds():
    """What the programs that have ended took of the processor, in the program and in the system."""
    used = resource.getrusage(resource.RUSAGE_CHILDREN)
    return used.ru_utime + used.ru_stime


def seconds(words, runs):
    """The least processor time of a run with these words, which has to end with status 0."""
    best = float("inf")
    for _ in range(runs):
        begin = processor_seconds()
        subprocess.run([PROGRAM, *words], check=True, stdout=subprocess.DEVNULL)
        best = min(best, processor_seconds() - begin)
    return best


def report(path):
    """What `show` says of the circuit of a text."""
    return subprocess.run([PROGRAM, "show", path], check=True, stdout=subprocess.PIPE).stdout


def written(folder, name, text):
    """The path of a new file with this text."""
    path = os.path.join(folder, name)
    with open(path, "w") as file:
        file.write(text)
    return path


def measured(words):
    """One run with these words: the line that it says, its processor time in seconds and its greatest memory in bytes."""
    run = subprocess.Popen(words, stdout=subprocess.PIPE, text=True)
    line = run.stdout.read().strip()
    _, status, used = os.wait4(run.pid, 0)
    run.returncode = os.waitstatus_to_exitcode(status)
    run.stdout.close()
    if run.returncode != 0:
        raise subprocess.CalledProcessError(run.returncode, words, line)
    return line, used.ru_utime + used.ru_stime, used.ru_maxrss * 1024


def runs_wanted():
    """The number of runs that the command line asks for, 5 unless given; ends where the program isn't built."""
    if not os.path.exists(PROGRAM):
        sys.exit("build the program first: ./turbomap map 2 0 examples/toggle.blif out.blif")
    return int(sys.argv[1]) if len(sys.argv) > 1 else 5
