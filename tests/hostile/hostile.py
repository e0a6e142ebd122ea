"""Runs the program on hostile texts, each with a small stack, and says what each run took.

    hostile.py PROGRAM FOLDER [all]

Status and line have to be those of the case. The processor's time is said as a ratio to that of the plainest text of as many bytes, a
comment. Where a text comes in two sizes, four times the bytes may take about four times as long. Memory stays under 100 times the bytes
read or 1 GB, whichever is more. Files that a refused run would have written, and those that are read, are as they were. What `map` leaves
is given to `check`, too, which has to accept it.
"""

import concurrent.futures
import os
import queue
import subprocess
import sys
import threading

import cases
import further_cases
from texts import MAPPED_SIGNALS, SIGNALS, SOURCE, fill

# Kilobytes.
STACK = 256
MOST_SECONDS = 900
BEFORE = "as it was\n"
WRITTEN = ["out.blif", "out.cert", "out.txt"]


def say(line):
    sys.stdout.write(f"hostile: {line}\n")
    sys.stdout.flush()


class Runner:
    """Runs in a folder of its own, and counts."""

    def __init__(self, program, folder):
        self.program, self.folder = program, folder
        self.plain, self.failed, self.count = {}, 0, 0

    def path(self, name):
        return os.path.join(self.folder, name)

    def write(self, name, parts):
        with open(self.path(name), "wb") as file:
            for part in parts:
                file.write(part.encode("latin-1"))

    def size_and_times(self, names):
        """The bytes of files, and when each was written last."""
        found = [os.stat(self.path(name)) for name in names]
        return sum(file.st_size for file in found), [file.st_mtime_ns for file in found]

    def run(self, words):
        """Status, the beginning of what was said, seconds of the processor, bytes of memory."""
        in_small_stack = ["sh", "-c", f'ulimit -s {STACK}; exec "$0" "$@"', self.program, *words]
        with open(self.path("said"), "w+b") as said:
            with subprocess.Popen(in_small_stack, stdout=said, cwd=self.folder) as child:
                clock = threading.Timer(MOST_SECONDS, child.kill)
                clock.start()
                _, status, used = os.wait4(child.pid, 0)
                clock.cancel()
                child.returncode = os.waitstatus_to_exitcode(status)
            said.seek(0)
            line = said.read(4096).decode("latin-1").removesuffix("\n")
        return child.returncode, line, used.ru_utime + used.ru_stime, used.ru_maxrss * 1024

    def seconds_of_plain(self, size):
        """The least of three runs on a comment of so many bytes, or of as many as a text may have."""
        size = min(size, SOURCE)
        if size not in self.plain:
            self.write("plain.blif", fill("#", size))
            self.plain[size] = min(self.run(["map", "2", "0", "plain.blif", "plain.out"])[2] for _ in range(3))
        return self.plain[size]

    def fail(self, name, what):
        self.failed += 1
        say(f"{name}: {what}")

    def judge(self, name, words, read, wanted):
        """A run of which status and line, memory and the files that are read are judged; answers its seconds and a line on it."""
        size, times = self.size_and_times(read)
        status, line, seconds, memory = self.run(words)
        as_wanted = line.startswith(wanted[1][:-1]) if wanted[1].endswith("*") else line == wanted[1]
        self.count += 1
        if status != wanted[0] or not as_wanted:
            self.fail(name, f"wanted {wanted[0]} and {wanted[1]}, got {status} and {line[:200]}")
        if memory > max(100 * size, 1_000_000_000):
            self.fail(name, f"{memory} bytes of memory for {size} bytes read")
        if self.size_and_times(read) != (size, times):
            self.fail(name, "a file that is read was written")
        ratio = seconds / max(self.seconds_of_plain(size), 0.001)
        took = f"{seconds:.2f} s, {ratio:.1f} times the plainest, {memory // 1_000_000} MB"
        return seconds, f"{words[0]}: {size} bytes, status {status}, {took}"

    def try_case(self, case):
        """Runs a case, and `check` after a `map`; answers the seconds of both."""
        for name in WRITTEN:
            self.write(name, [BEFORE])
        for name, parts in case.files.items():
            self.write(name, parts)
        answers = [self.judge(case.name, case.words, list(case.files), (case.status, case.line))]
        if case.status:
            for name in WRITTEN:
                if name not in case.files and open(self.path(name), "rb").read(100) != BEFORE.encode():
                    self.fail(case.name, f"{name} isn't as it was")
        elif case.words[0] == "map":
            answers.append(self.judge(case.name, ["check", *case.words[1:]], case.words[3:], (0, "accepted *")))
        say("; ".join([f"{case.name}: {answers[0][1]}"] + [line for _, line in answers[1:]]))
        return [seconds for seconds, _ in answers]

    def try_all(self, group):
        for case in group:
            self.try_case(case)

    def try_sizes(self, group, size):
        """A group of cases in a quarter of a size and in the whole."""
        for quarter, whole in zip(group(size // 4), group(size)):
            for less, more in zip(self.try_case(quarter), self.try_case(whole)):
                if more > 8 * less + 0.5:
                    self.fail(whole.name, f"{more:.2f} s where a quarter of it takes {less:.2f} s")


def tasks(everything):
    """What has to be tried: a method of a runner, and what it is given."""
    one, sizes = Runner.try_all, Runner.try_sizes
    longer = [(one, cases.settled_longer()), (one, cases.longest())] if everything else []
    blif = [(sizes, cases.large_texts, SOURCE), (one, cases.settled()), (sizes, cases.shown_latches, MAPPED_SIGNALS),
            (sizes, cases.latches, SIGNALS), (sizes, cases.wide_gates, 60_000), (sizes, cases.long_named, 4000), (one, cases.limits())]
    others = [(sizes, cases.certificates, SOURCE), (one, cases.certificates_at_limits()), (sizes, cases.vectors, SOURCE),
              (one, cases.vectors_past_limits())]
    models = [(one, further_cases.models_at_limits()), (sizes, further_cases.models, SOURCE)]
    aiger = [(one, further_cases.aiger_at_limits()), (one, further_cases.aiger_settled()), (sizes, further_cases.aiger_texts, SOURCE),
             (sizes, further_cases.aiger_circuits, SIGNALS)]
    return longer + blif + models + aiger + others


def main():
    program, folder = os.path.abspath(sys.argv[1]), sys.argv[2]
    runners, free = [], queue.SimpleQueue()
    for number in ("0", "1"):
        os.mkdir(os.path.join(folder, number))
        runners.append(Runner(program, os.path.join(folder, number)))
        free.put(runners[-1])

    def take(task):
        runner = free.get()
        try:
            task[0](runner, *task[1:])
        finally:
            free.put(runner)

    with concurrent.futures.ThreadPoolExecutor(len(runners)) as pool:
        list(pool.map(take, tasks(sys.argv[3:4] == ["all"])))
    failed = sum(runner.failed for runner in runners)
    say(f"{sum(runner.count for runner in runners)} runs, {failed} failures")
    return min(failed, 1)


if __name__ == "__main__":
    sys.exit(main())
