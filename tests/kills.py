#!/usr/bin/env python3
"""kills.py KILLS SEED JOB..: kills the job at so many moments by chance, and starts it again each time until it ends by itself.

The job is the words that start it, but for slice and file. It is run on stored arrivals, in slices of several sizes, its file in memory where that can be
had, so that no kill waits for a disk. However often it was killed, its status, the places told and the file of the run must be those of a job left alone."""
import os
import random
import re
import signal
import subprocess
import sys
import tempfile
import time

KILLS, SEED, JOB = int(sys.argv[1]), int(sys.argv[2]), sys.argv[3:]
ARRIVALS = os.path.join(os.path.dirname(os.path.abspath(__file__)), '..', 'examples', 'arrivals')
MEMORY = '/dev/shm'
FOLDER = tempfile.TemporaryDirectory(dir=MEMORY if os.access(MEMORY, os.W_OK) else None)
SAVED = os.path.join(FOLDER.name, 'run')


def start(slice_, arrivals):
    with open(os.path.join(ARRIVALS, arrivals + '.in')) as lines:
        return subprocess.Popen(JOB + [str(slice_), SAVED], stdin=lines, stdout=subprocess.PIPE, universal_newlines=True)


def forget():
    for path in (SAVED, SAVED + '.new'):
        if os.path.exists(path):
            os.remove(path)


def ended(job):
    """What a job that ended by itself came to: status, places and tables; None for one that was killed."""
    told = job.communicate()[0]
    if job.returncode == -signal.SIGKILL:
        return None
    with open(SAVED, 'rb') as file:
        return job.returncode, sorted(re.findall(r'record \d+ has place \w+', told)), file.read()


def alone(slice_, arrivals):
    """A job that is left alone, and the seconds that it takes."""
    forget()
    begun = time.time()
    return ended(start(slice_, arrivals)), time.time() - begun


def kill_once(slice_, arrivals, seconds):
    """Starts the job; None where it was killed, else what it came to."""
    job = start(slice_, arrivals)
    time.sleep(random.uniform(0, seconds))
    job.kill()
    return ended(job)


def main():
    random.seed(SEED)
    kills = rounds = taken_up = 0
    cases = [(slice_, arrivals) for slice_ in (50, 20, 7) for arrivals in ('late', 'out-of-order', 'held-up', 'fails')]
    wanted = {case: alone(*case) for case in cases}
    while kills < KILLS:
        case = cases[rounds % len(cases)]
        (end, seconds), got = wanted[case], None
        forget()
        rounds += 1
        while got is None:
            taken_up += os.path.exists(SAVED)
            got = kill_once(*case, seconds / 2)
            kills += got is None
        if got != end:
            sys.exit('kills: after %d kills a job of slices of %d on %s ends with %s %s, not %s %s, or with other tables'
                     % (kills, *case, *got[:2], *end[:2]))
    print('kills: %d kills, %d jobs, %d times taken up from a file: the same ends, places and tables' % (kills, rounds, taken_up))


main()
