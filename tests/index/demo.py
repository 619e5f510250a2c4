#!/usr/bin/env python3
"""demo.py FOLDER PORT SECONDS PROGRAM..: from nothing to a running service in a folder: the sample collection, edits and answers that come in, and the page, for so many seconds; 0 is until it
is stopped. Then it says how old the edits were when they could be found."""
import json
import os
import random
import shutil
import sqlite3
import subprocess
import sys
import time

import collection
from world import PLANS, answer, words


def set_up(folder, program):
    shutil.rmtree(folder, ignore_errors=True)
    os.makedirs(folder)
    for name in ('portal.plan', 'portal.conf'):
        shutil.copy(os.path.join(PLANS, name), folder)
    run = [*program, 'init', '--conf', os.path.join(folder, 'portal.conf')]
    subprocess.run(run, check=True)
    lines = os.path.join(folder, 'collection.jsonl')
    with open(lines, 'w', encoding='utf-8') as file:
        subprocess.run([sys.executable, collection.__file__, '2000'], stdout=file, check=True)
    subprocess.run([*program, 'edit', '--conf', os.path.join(folder, 'portal.conf'), lines], check=True)


def live(db, r):
    """Half a second of the world: a few edits, and some of the answers."""
    db.execute('BEGIN IMMEDIATE')
    for number in (r.randint(1, 2000) for _ in range(r.randint(0, 3))):
        row = collection.record(r, number)
        if r.random() < .03:
            db.execute('DELETE FROM catalogue WHERE id = ?', (number,))
        else:
            fields = json.dumps({'kind': row['kind'], 'rights': row['rights']})
            db.execute('INSERT INTO catalogue VALUES(?,?,?,?) ON CONFLICT(id) DO UPDATE SET title = excluded.title, body = excluded.body, fields = excluded.fields',
                       (number, row['title'], row['body'] and words(r, 120), fields))
    for record, version, what in db.execute('SELECT record, version, what FROM ri_job ORDER BY at LIMIT 400').fetchall():
        if r.random() < (.05 if what == 'Ocr' else .01):
            db.execute('INSERT INTO ri_item(record, version, name, word, text, at) VALUES(?,?,?,?,?,?)', (record, version, what, *answer(what, record, version), time.time()))
    db.execute('COMMIT')


def main():
    folder, port, seconds, program = sys.argv[1], sys.argv[2], float(sys.argv[3]), sys.argv[4:]
    set_up(folder, program)
    conf = os.path.join(folder, 'portal.conf')
    service = subprocess.Popen([*program, 'serve', '--conf', conf, '--http', '127.0.0.1:' + port])
    print('demo: the page is at http://127.0.0.1:%s/, its folder is %s; edits and answers come in until you press Ctrl-C' % (port, folder), flush=True)
    db, r, began = sqlite3.connect(os.path.join(folder, 'portal.db'), timeout=60, isolation_level=None), random.Random(), time.time()
    try:
        while service.poll() is None and (seconds == 0 or time.time() < began + seconds):
            live(db, r)
            time.sleep(.5)
    except KeyboardInterrupt:
        pass
    service.terminate()
    status = service.wait()
    subprocess.run([*program, 'age', '--conf', conf, '--svg', os.path.join(folder, 'age.svg')], check=True)
    subprocess.run([*program, 'status', '--conf', conf], check=True)
    return status


if __name__ == '__main__':
    sys.exit(main())
