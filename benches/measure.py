"""Runs a command several times and prints the least seconds and the greatest peak of memory in bytes.

    python3 benches/measure.py RUNS COMMAND [WORD]..

The output of the command goes nowhere. Where a run fails, its status is this program's. The peak is that of
/usr/bin/time; where that is missing it is the system's count for the process, which is at least this program's own.
"""

import os
import subprocess
import sys
import tempfile
import time

TIMER = "/usr/bin/time"


def timer_works():
    try:
        run = subprocess.run([TIMER, "-f", "%M", "true"], capture_output=True)
    except OSError:
        return False
    return run.returncode == 0 and run.stderr.strip().isdigit()


def once(words, timed):
    """The seconds, the peak in bytes and the status of one run."""
    with tempfile.NamedTemporaryFile("r") as told:
        if timed:
            words = [TIMER, "-q", "-f", "%M", "-o", told.name, *words]
        before = time.perf_counter()
        child = subprocess.Popen(words, stdin=subprocess.DEVNULL, stdout=subprocess.DEVNULL)
        _child, status, usage = os.wait4(child.pid, 0)
        seconds = time.perf_counter() - before
        child.returncode = os.WEXITSTATUS(status) if os.WIFEXITED(status) else 1
        peak = int(told.read().split()[-1]) if timed else usage.ru_maxrss
    return seconds, peak * 1024, child.returncode


def main():
    runs, words = int(sys.argv[1]), sys.argv[2:]
    timed = timer_works()
    least, greatest = None, 0
    for _turn in range(runs):
        seconds, peak, status = once(words, timed)
        if status != 0:
            return status
        least = seconds if least is None else min(least, seconds)
        greatest = max(greatest, peak)
    print("%.3f %d" % (least, greatest))
    return 0


if __name__ == "__main__":
    sys.exit(main())
