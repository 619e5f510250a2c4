#!/usr/bin/env python3
"""million.py RUNS PROGRAM..: so many waiting runs in the database. One is made by the job, the others are that row again under other numbers, which is what the job writes for a record that
was supplied the same. Says how many bytes they take with their jobs, all tables and indexes of waiting runs counted, and that those that are answered go on."""
import json
import sys
import tempfile

from world import World

MOST = 100e6


def main():
    runs = int(sys.argv[1])
    with tempfile.TemporaryDirectory() as folder:
        world = World(folder, sys.argv[2:])
        db = world.db
        db.execute('INSERT INTO catalogue VALUES(1, ?, ?, ?)', ('a title', 'a body', json.dumps({'kind': 'paper', 'rights': 'free'})))
        world.run('work', '--once')
        numbers = 'WITH RECURSIVE n(k) AS (SELECT 2 UNION ALL SELECT k + 1 FROM n WHERE k < %d) ' % runs
        db.execute('BEGIN')
        db.execute(numbers + 'INSERT INTO ri_run SELECT k, version, move, at FROM n, ri_run')
        db.execute(numbers + 'INSERT INTO ri_job SELECT k, version, what, word, at, due, next, tries FROM n, ri_job WHERE record = 1')
        db.execute(numbers + 'INSERT INTO ri_record SELECT k, version, gone, at FROM n, ri_record WHERE record = 1')
        db.execute('COMMIT')
        sizes = dict(db.execute("SELECT name, sum(pgsize) FROM dbstat WHERE name LIKE 'ri_run%' OR name LIKE 'ri_job%' OR name LIKE 'ri_state%' OR name LIKE 'ri_move%' GROUP BY name"))
        for record in (1, 2, runs // 2, runs):
            world.give(record, 1, 'Ocr', 'ready', 'read')
        world.run('work', '--once')
        shown = db.execute("SELECT count(*) FROM ri_shown WHERE form = 'with_ocr'").fetchone()[0]
        waiting = db.execute('SELECT count(*) FROM ri_run').fetchone()[0]
        if sum(sizes.values()) > MOST * runs / 1e6 or shown != 4 or waiting != runs - 4:
            raise SystemExit('million: %s, %d shown, %d waiting' % (sizes, shown, waiting))
        print('million: %d waiting runs with their jobs take %.1f MB (%s), in %d states; four are answered and go on' % (
            runs, sum(sizes.values()) / 1e6, ', '.join('%s %.1f' % (name, size / 1e6) for name, size in sorted(sizes.items()) if size > 1e5), db.execute('SELECT count(*) FROM ri_state').fetchone()[0]))


main()
