#!/usr/bin/env python3
"""race.py PROGRAM..: late answers for version 1 stand in the queue before and after edits to version 2; nothing of version 1 may be placed then, nor anything of version 2 that was
not answered."""
import sys
import tempfile

from world import World, answer

RECORDS = 400


def main():
    with tempfile.TemporaryDirectory() as folder:
        world = World(folder, sys.argv[1:], seed=6)
        world.edits(range(1, RECORDS + 1))
        world.run('work', '--once')
        jobs = world.db.execute('SELECT record, version, what FROM ri_job').fetchall()
        world.answers(wrong=False)
        world.edits(range(1, RECORDS + 1))
        world.db.execute('BEGIN IMMEDIATE')
        for record, version, what in jobs:
            world.give(record, version, what, *answer(what, record, version))
        world.db.execute('COMMIT')
        world.conf(3)
        world.run('work', '--once')
        # what waits for an answer shows no more than its title
        early = world.db.execute("SELECT count(*) FROM ri_run JOIN ri_shown USING(record, version) WHERE form <> 'title'").fetchone()[0]
        if early:
            raise SystemExit('race: %d records show more than they may' % early)
        world.finish()
        world.verdict('race')
        print('race: %d late answers, half before the edit and half after it: none is placed' % (2 * len(jobs)))


main()
