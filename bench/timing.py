"""Runs the built program on an input, and tells the least time of the processor of some runs, and the memory that they held."""

import os
import subprocess
import tempfile
import threading
from pathlib import Path

PROGRAM = Path(os.environ.get("GCSH", Path(__file__).resolve().parent.parent / "crates/gcsh/out/gcsh"))
RUNS = int(os.environ.get("RUNS", 5))


# Each refusal but the one that `throw` always has, and `BadLine`, which the run of empty lines has at each.
REFUSALS = tuple(name.encode() for name in (
    "NoSuchName Unrooted WrongKind BadType FieldCount TypeMismatch OutOfBounds Immutable NotI8Array LengthMismatch TooLarge RootsFull "
    "GcHeapOutOfMemory GcHeapGrowthFailed"
).split())


class Failed(Exception):
    """The program ended with another status than 0, or refused a command."""


def once(words, path):
    """One run: its seconds of the processor, and the bytes that were resident at most (GNU time tells them)."""
    with open(path, "rb") as source, tempfile.TemporaryFile() as sink, tempfile.TemporaryFile() as told:
        command = ["/usr/bin/time", "-q", "-f", "%M", PROGRAM, *words.split()]
        child = subprocess.Popen(command, stdin=source, stdout=sink, stderr=told)
        _, status, usage = os.wait4(child.pid, 0)
        child.returncode = os.waitstatus_to_exitcode(status)
        if child.returncode != 0:
            raise Failed(f"{words}: status {child.returncode}")
        sink.seek(0)
        if any(line.startswith(REFUSALS) for line in sink):
            raise Failed(f"{words}: a command was refused")
        told.seek(0)
        held = int(told.read()) * 1024
    return usage.ru_utime + usage.ru_stime, held


def least(words, text, runs=RUNS):
    """The least seconds of the processor of some runs, and the least of what they held."""
    with tempfile.NamedTemporaryFile() as file:
        file.write(text.encode())
        file.flush()
        told = [once(words, file.name) for _ in range(runs)]
    return min(seconds for seconds, _ in told), min(held for _, held in told)


class Session:
    """The program at two pipes, so that what some commands take is told apart from what came before them."""

    def __init__(self, words):
        self.child = subprocess.Popen([PROGRAM, *words.split()], stdin=subprocess.PIPE, stdout=subprocess.PIPE)

    def used(self):
        """Nanoseconds on a processor so far."""
        with open(f"/proc/{self.child.pid}/schedstat") as told:
            return int(told.read().split()[0])

    def feed(self, text):
        """Gives whole lines, waits for as many replies, and tells the nanoseconds that they took."""
        before, left, seen = self.used(), text.count("\n"), b""
        giving = threading.Thread(target=lambda: (self.child.stdin.write(text.encode()), self.child.stdin.flush()))
        giving.start()
        while left > 0:
            piece = os.read(self.child.stdout.fileno(), 1 << 20)
            if not piece:
                raise Failed("the program ended early")
            left -= piece.count(b"\n")
            both = seen[-32:] + piece
            if any(refusal in both for refusal in (b"BadLine", *REFUSALS)):
                raise Failed("a command was refused")
            seen = piece
        giving.join()
        return self.used() - before

    def close(self):
        self.child.stdin.close()
        self.child.stdout.close()
        self.child.wait()


def machine():
    """What this machine has, in a line."""
    cpu = next((line.split(":", 1)[1].strip() for line in open("/proc/cpuinfo") if line.startswith("model name")), "unknown")
    memory = next(int(line.split()[1]) // 1024 // 1024 for line in open("/proc/meminfo") if line.startswith("MemTotal"))
    return f"{cpu}, {len(os.sched_getaffinity(0))} cores, {memory} GiB, load average {os.getloadavg()[0]:.1f}"
