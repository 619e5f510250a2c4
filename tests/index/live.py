#!/usr/bin/env python3
"""live.py RECORDS SECONDS PROGRAM..: a day in small: edits one by one, answers some seconds later, a kill now and then, and meanwhile the index is verified and rebuilt; how old an edit is when it can be found, as the job itself says, beside
a build at night. Then everything must be as the oracle says. PICTURE is where the picture goes."""
import os
import subprocess
import sys
import tempfile
import time

from world import World, kill


def main():
    records, seconds = int(sys.argv[1]), float(sys.argv[2])
    with tempfile.TemporaryDirectory() as folder:
        world = World(folder, sys.argv[3:], seed=2)
        world.edits(range(1, records + 1))
        world.finish()
        r, began, kills, process = world.r, time.time(), 0, world.serve()
        next_kill = began + 3
        # what operators do meanwhile; a fault that is not there must not be found
        chores = [['verify'], ['rebuild', '--beside'], ['replan', world.other_plan()], ['rebuild'], ['verify', '--repair'], ['replan', world.plan]]
        chore, next_chore = None, began + 2
        while time.time() < began + seconds:
            world.edits(r.randint(1, records) for _ in range(r.choice((0, 1, 1, 2))))
            world.answers(.01)
            time.sleep(r.expovariate(20))
            if chore is not None and chore.poll() not in (None, 0):
                raise SystemExit('live: %s ends with %d' % (chore.args, chore.returncode))
            if chores and time.time() > next_chore and (chore is None or chore.poll() == 0):
                chore, next_chore = subprocess.Popen(world.words(*chores.pop(0)), stdout=subprocess.DEVNULL), time.time() + seconds / 8
            if time.time() > next_kill:
                kill(process)
                process, kills, next_kill = world.serve(), kills + 1, time.time() + r.uniform(2, 6)
        told = world.json('age', '--since', '%ds' % (time.time() - began))[0]
        if 'PICTURE' in os.environ:
            world.run('age', '--since', '%ds' % (time.time() - began), '--svg', os.environ['PICTURE'])
        kill(process)
        if chores or chore.wait() != 0:
            raise SystemExit('live: not all was done meanwhile')
        world.finish()
        world.verdict('live')
        print('live: %d edits in %d s, %d kills; seconds from cause to shown: %s; from edit to shown: %s; a build at night: %s; all as the oracle says' % (
            sum(world.version.values()) - records, seconds, kills, told['cause_to_shown'], told['edit_to_shown'], told['nightly']))


main()
