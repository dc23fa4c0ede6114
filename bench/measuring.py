"""Counts instructions and takes times, for the programs of bench/."""
import os
import re
import subprocess
import time

TOP = os.path.dirname(os.path.dirname(os.path.realpath(__file__)))
FEW = 100
MORE = 1100


def counted(command, given):
    """All instructions of a run, by valgrind's callgrind, so that the load of the machine doesn't change them."""
    tool = ["valgrind", "--tool=callgrind", "--callgrind-out-file=/dev/null"]
    ran = subprocess.run(tool + command, input=given, capture_output=True, check=True)
    return int(re.search(rb"Collected : (\d+)", ran.stderr).group(1))


def instructions(run):
    """Those of one call, where `run` gives the command that makes it so many times, and what that is given."""
    return (counted(*run(MORE)) - counted(*run(FEW))) / (MORE - FEW)


def seconds(command, given):
    """The least time of five runs."""
    times = []
    for _ in range(5):
        begin = time.perf_counter()
        subprocess.run(command, input=given, stdout=subprocess.DEVNULL, check=True)
        times.append(time.perf_counter() - begin)
    return min(times)
