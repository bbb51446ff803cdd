#!/usr/bin/env python3
"""Measures what threads that find nothing to do cost, in processor time.

    tools/idle-wait.py [--program PROGRAM] [--seconds N] [--workers N]

A caller encodes a long sound by FLAC and awaits the flush, in a run with workers. While one worker is in the middle of a block, that
thread alone is stopped (ptrace) for so many seconds, 10 where they are left out. So nothing can happen: the caller, the turner and the
other workers find nothing. The processor time of each of them over these seconds is printed, from /proc. Then the run is ended. Needs Linux on x86-64, and
leave to trace a process of one's own.
"""
import argparse
import ctypes
import json
import os
import random
import subprocess
import sys
import tempfile
import time

HERE = os.path.dirname(os.path.realpath(__file__))
LIBC = ctypes.CDLL(None, use_errno=True)
LIBC.ptrace.argtypes = [ctypes.c_long, ctypes.c_long, ctypes.c_void_p, ctypes.c_void_p]
SEIZE, INTERRUPT, DETACH = 0x4206, 0x4207, 17
WALL = 0x40000000  # waitpid: threads as well as processes
TICK = os.sysconf("SC_CLK_TCK")


def trace(request, thread):
    if LIBC.ptrace(request, thread, None, None) != 0:
        raise OSError(ctypes.get_errno(), "ptrace")


def script(folder):
    """A script that encodes a sound of noise a hundred times over: the work of some seconds."""
    path = os.path.join(folder, "long.json")
    noise = random.Random(1).randbytes(7 << 20).hex()
    init = {"format": "s16", "sampleRate": 48000, "numberOfChannels": 2, "numberOfFrames": 7 << 18, "timestamp": 0, "data": noise}
    config = {"codec": "flac", "sampleRate": 48000, "numberOfChannels": 2}
    steps = [{"do": "configure", "on": "e", "config": config}, {"do": "audio", "as": "s", "init": init}]
    steps += [{"do": "encode", "on": "e", "data": "s"}] * 100
    steps += [{"do": "flush", "on": "e", "as": "p"}, {"do": "await", "promise": "p"}]
    with open(path, "w") as file:
        json.dump({"codecs": [{"name": "e", "kind": "audio-encoder"}], "callers": [{"name": "a", "steps": steps}]}, file)
    return path


def times(process):
    """The processor time of each thread of a process, in seconds."""
    found = {}
    for thread in os.listdir("/proc/%d/task" % process):
        with open("/proc/%d/task/%s/stat" % (process, thread)) as file:
            parts = file.read().rsplit(")", 1)[1].split()
        found[int(thread)] = (int(parts[11]) + int(parts[12])) / TICK
    return found


def busiest(process, seconds=0.5):
    """The thread that took the most processor time just now, and its share of it."""
    before = times(process)
    time.sleep(seconds)
    after = times(process)
    thread = max(after, key=lambda it: after[it] - before.get(it, 0))
    return thread, (after[thread] - before.get(thread, 0)) / seconds


def stopped(process):
    """Stops the thread that is at work, and gives its number: the one that takes the time, and beside which no other does."""
    while True:
        thread, share = busiest(process)
        trace(SEIZE, thread)
        trace(INTERRUPT, thread)
        os.waitpid(thread, WALL)
        if share > 0.1 and busiest(process)[1] < 0.05:
            return thread, share
        trace(DETACH, thread)


def main():
    parser = argparse.ArgumentParser(description=__doc__.splitlines()[0])
    parser.add_argument("--program")
    parser.add_argument("--seconds", type=float, default=10)
    parser.add_argument("--workers", type=int, default=4)
    given = parser.parse_args()
    program = os.path.abspath(given.program or subprocess.run([os.path.join(HERE, "program")], stdout=subprocess.PIPE, check=True).stdout.decode().strip())
    with tempfile.TemporaryDirectory() as folder:
        words = [program, "run", script(folder), "--workers", str(given.workers)]
        run = subprocess.Popen(words, stdout=subprocess.DEVNULL, stderr=subprocess.DEVNULL)
        # the caller, the turner and the workers, of which the first thread may be one
        while run.poll() is None and len(os.listdir("/proc/%d/task" % run.pid)) < given.workers + 2:
            time.sleep(0.01)
        thread, share = stopped(run.pid)
        before = times(run.pid)
        time.sleep(given.seconds)
        after = times(run.pid)
        trace(DETACH, thread)
        run.kill()
        run.wait()
    spent = {it: after[it] - before[it] for it in after if it in before and it != thread}
    print("the worker that was stopped had taken %.0f in 100 of the time" % (100 * share))
    for it in sorted(spent):
        print("thread %d: %.2f s in %.0f s" % (it - run.pid, spent[it], given.seconds))
    print("all of them: %.2f s" % sum(spent.values()))
    return 0


if __name__ == "__main__":
    sys.exit(main())
