"""Runs of other programs: which are there, how long one may take, and what it took."""
import os
import resource
import shutil
import signal
import subprocess
import threading
import time
from collections import namedtuple

from .script import Fault

PACKAGES = {"yosys": "yosys", "berkeley-abc": "berkeley-abc", "iverilog": "iverilog", "vvp": "iverilog"}
Ended = namedtuple("Ended", "status seconds late log")
taken, live = {}, set()
lock = threading.Lock()
stopped = threading.Event()


def has(tool):
    """Whether a tool is there."""
    return shutil.which(tool) is not None


def need(*tools):
    """A Fault names each tool that is missing, with Debian's name of its package."""
    missing = [tool for tool in tools if not has(tool)]
    if missing:
        packages = " ".join(dict.fromkeys(PACKAGES[tool] for tool in missing))
        raise Fault(f"there is no {' and no '.join(missing)}; apt-get install {packages}")


def run(command, log, cwd=None, limit=None, out=None, feed=None):
    """Runs a command, for at most so many seconds of processor time, so that a busy machine changes no result; it is ended, too, if it
    waits and uses none. What it says goes to the file log, what it prints to the file out, or to log too. Gives its status, its
    seconds, and whether it was ended."""
    if stopped.is_set():
        return Ended(1, 0, True, log)
    with open(log, "ab") as said, open(out or os.devnull, "wb") as printed, open(feed or os.devnull, "rb") as given:
        process = subprocess.Popen(command, cwd=cwd, stdin=given, stdout=printed if out else said, stderr=said)
        live.add(process)
        late = guard(process, limit)
        _, code, usage = os.wait4(process.pid, 0)
        live.discard(process)
    process.returncode = os.waitstatus_to_exitcode(code)
    seconds = usage.ru_utime + usage.ru_stime
    over = late.stop() or limit is not None and process.returncode == -signal.SIGXCPU
    with lock:
        name = os.path.basename(command[0])
        taken[name] = taken.get(name, 0) + seconds
    return Ended(process.returncode, seconds, over, log)


def kill(process):
    try:
        os.kill(process.pid, signal.SIGKILL)
    except ProcessLookupError:
        pass


def stop():
    """Ends all that runs, and lets nothing begin any more."""
    stopped.set()
    for process in list(live):
        kill(process)


class Guard:
    """Ends a process that uses no processor time in so many seconds by the clock, since it waits for something."""

    def __init__(self, process, seconds):
        self.over, self.ended, self.used = False, False, -1
        self.process, self.seconds = process, seconds
        self.arm()

    def arm(self):
        if self.seconds and not self.ended:
            self.timer = threading.Timer(self.seconds, self.look)
            self.timer.daemon = True
            self.timer.start()

    def look(self):
        used = ticks(self.process.pid)
        if used > self.used:
            self.used = used
            self.arm()
        elif not self.ended:
            self.over = True
            kill(self.process)

    def stop(self):
        """Whether the process was ended."""
        self.ended = True
        if self.seconds:
            self.timer.cancel()
        return self.over


def ticks(process):
    """The processor time that a process has used, in ticks of the clock; -1 if it is no more."""
    try:
        with open(f"/proc/{process}/stat", encoding="latin-1") as file:
            return sum(int(word) for word in file.read().rpartition(")")[2].split()[11:13])
    except (OSError, ValueError):
        return -1


def guard(process, limit):
    """Bounds the processor time of a process that has just begun, and the time that it may wait."""
    if limit is None:
        return Guard(process, None)
    whole = max(1, int(limit + 0.999))
    try:
        resource.prlimit(process.pid, resource.RLIMIT_CPU, (whole, whole + 1))
    except (ProcessLookupError, OSError):
        pass
    return Guard(process, 300)


def tail(path, count=1):
    """The last lines of a log that are not blank."""
    with open(path, encoding="utf-8", errors="replace") as file:
        lines = [line.strip() for line in file if line.strip()]
    return " ".join(lines[-count:])


class Clock:
    """Seconds since the beginning, by the clock and of all processes."""

    def __init__(self):
        self.began = time.monotonic()

    def wall(self):
        return time.monotonic() - self.began

    def spent(self):
        own = time.process_time()
        with lock:
            return own + sum(taken.values())
