"""What the scripts of this folder share: the built program, how long it runs, and how much memory it takes."""
import pathlib
import subprocess
import sys
import time

from build import NOT_PROVED

PROGRAM = pathlib.Path(__file__).resolve().parent.parent / "crates/regaudit/out/regaudit"
RUNS = 3


def built(program=PROGRAM):
    """The program, which is built and proved."""
    if not program.exists():
        sys.exit("bench: the program is not built yet; ./regaudit prove at the root proves and builds it")
    if NOT_PROVED in subprocess.run([program, "version"], stdout=subprocess.PIPE, text=True).stdout:
        sys.exit("bench: the program is not proved, and its checks take time; ./regaudit prove at the root proves it")
    return program


def timed(words, source=subprocess.DEVNULL):
    """The seconds of a run, what it printed, and its status."""
    began = time.perf_counter()
    run = subprocess.run(words, stdin=source, stdout=subprocess.PIPE, text=True)
    return time.perf_counter() - began, run.stdout, run.returncode


def least_seconds(words, text, status):
    """The least seconds of a few runs; each has to print this text and end with this status."""
    seconds = []
    for _ in range(RUNS):
        took, said, ended = timed(words)
        if (said, ended) != (text, status):
            sys.exit(f"bench: expected {text[:80]!r} and status {status}, got {said[:80]!r} and {ended}")
        seconds.append(took)
    return min(seconds)


def peak_so_far(run):
    """The greatest resident memory (MB) so far of a program that runs; 0 where it has ended.

    It is read from /proc: what the system reports of a child that has ended includes the memory of the script.
    """
    for line in pathlib.Path(f"/proc/{run.pid}/status").read_text().splitlines():
        if line.startswith("VmHWM:"):
            return int(line.split()[1]) / 1024
    return 0


def peak_of(words):
    """The greatest resident memory (MB) that is seen while the program runs."""
    peak = 0
    run = subprocess.Popen(words, stdin=subprocess.DEVNULL, stdout=subprocess.DEVNULL)
    while run.poll() is None:
        peak = max(peak, peak_so_far(run))
    return peak
