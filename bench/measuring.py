"""What the benchmarks of the program share: which program it is, how long it takes, and how much memory."""

import os
import re
import subprocess
import sys
import time

QUIET = {"stdin": subprocess.DEVNULL, "stdout": subprocess.DEVNULL, "stderr": subprocess.DEVNULL}


def stop(why):
    sys.exit(f"{os.path.relpath(sys.argv[0])}: {why}")


def program_of(words):
    """The program that the words name; without one the proved one, which is made if need be."""
    if words:
        if len(words) > 1 or not os.access(words[0], os.X_OK):
            stop(f"there is no program {' '.join(words)}")
        return os.path.abspath(words[0])
    built = os.path.join(os.path.dirname(os.path.dirname(os.path.realpath(__file__))), "scripts/built")
    made = subprocess.run([built, "--proved"], stdout=subprocess.PIPE, text=True, check=False)
    if made.returncode:
        stop("the program was not built")
    return made.stdout.strip()


def times_of(command, wanted=0):
    """Runs a program with its output dropped, and answers how long it took, and how much processor time."""
    start = time.perf_counter()
    child = subprocess.Popen(command, **QUIET)
    _, status, used = os.wait4(child.pid, 0)
    seconds = time.perf_counter() - start
    child.returncode = os.waitstatus_to_exitcode(status)
    if child.returncode != wanted:
        stop(f"{' '.join(command)} ended with status {child.returncode}")
    return seconds, used.ru_utime + used.ru_stime


def peak_of(command):
    """Runs a program with its output dropped, and answers its peak memory in bytes.

    It is looked up each millisecond: what a parent is told at the end is never below its own size.
    """
    peak = 0
    child = subprocess.Popen(command, **QUIET)
    while child.poll() is None:
        with open(f"/proc/{child.pid}/status", encoding="utf-8") as it:
            found = re.search(r"^VmHWM:\s*(\d+) kB$", it.read(), re.M)
        peak = int(found[1]) * 1024 if found else peak
        time.sleep(0.001)
    return peak
