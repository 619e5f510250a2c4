#!/usr/bin/env python3
"""storm.py RECORDS KILLS PROGRAM..: edits, late answers and deletions while the job is killed again and again, in batches of 1 to 200; then all answers come in, and every record must
be as the oracle says."""
import sys
import tempfile
import time

from world import World, kill


def hot(r, records, most):
    """Some of the few records that are edited again and again."""
    return [r.randint(1, 1 + records // 50) for _ in range(r.randint(0, most))]


def storm(world, records, kills):
    """Most records are edited in one round alone, so that what is lost there stays lost. Answers how many kills there were, and how many of these came while items were left, after some were done and
    before."""
    r = world.r
    order = r.sample(range(1, records + 1), records)
    world.edits(range(1, records + 1))
    killed = midst = first = 0
    # about how long the service has; it grows and shrinks, so that half of the kills come in the midst of work, on any machine
    about = .05
    while killed < kills:
        world.conf(r.choice((1, 2, 5, 20, 50, 200)))
        world.edits(order[killed * records // kills:(killed + 1) * records // kills] * r.randint(1, 3) + hot(r, records, 60))
        world.answers(r.choice((.1, .5)))
        before, process = world.done(), world.serve_and_wait()
        ends = time.time() + r.uniform(0, 2) * about
        while time.time() < ends:
            world.edits(hot(r, records, 3))
            world.answers(r.choice((0, .02)))
            time.sleep(.01)
        kill(process)
        killed += 1
        begun, left = world.done() > before, world.left() > 0
        midst += begun and left
        first += left and not begun
        about = min(2, max(.005, about * (1 if begun and left else 1.5 if left else .7)))
    world.conf(200)
    world.finish()
    return killed, midst, first


def main():
    records, kills = int(sys.argv[1]), int(sys.argv[2])
    with tempfile.TemporaryDirectory() as folder:
        world = World(folder, sys.argv[3:], seed=9)
        killed, midst, first = storm(world, records, kills)
        world.verdict('storm')
        told = world.json('status')[0]
        world.run('verify')
        print('storm: %d records, %d edits, %d kills, %d of them between two batches or within one, %d within the first batch or before it: all as the oracle says, in %d states; %d late, %d dropped' % (
            records, sum(world.version.values()), killed, midst, first, told['states'], told['done'].get('late', 0), told['done'].get('dropped', 0)))


main()
