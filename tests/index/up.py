#!/usr/bin/env python3
"""up.py PROGRAM..: the service stays up while the database is locked, the disk is full, the server is away, a plan is wrong; it says so, goes on afterwards, and nothing is lost."""
import os
import resource
import sqlite3
import subprocess
import sys
import tempfile
import time

from postgres import PostgresWorld
from server import Psql, Server
from world import World

SMALL = 1 << 20


def serve(world):
    said = open(os.path.join(world.folder, 'said'), 'w+', encoding='utf-8')
    return subprocess.Popen(world.words('serve'), stdout=subprocess.DEVNULL, stderr=said), said


def until(what, truth, seconds=90):
    began = time.time()
    while not truth():
        if time.time() > began + seconds:
            raise SystemExit('up: %s: not after %d s' % (what, seconds))
        time.sleep(.1)


def has_said(said, words):
    said.seek(0)
    return words in said.read()


def title(world, record):
    row = world.db.execute('SELECT title FROM ri_doc WHERE %s = ?' % world.number, (record,)).fetchone()
    return row and row[0]


def put(world, record, words, body='a body'):
    world.db.execute("INSERT INTO catalogue VALUES(?, ?, ?, '{\"rights\": \"free\"}')", (record, words, body))


def over_sqlite(program, folder):
    world = World(folder, program)
    process, said = serve(world)
    put(world, 1, 'first')
    until('the first record', lambda: title(world, 1) == 'first')
    other = sqlite3.connect(os.path.join(folder, 'index.db'), isolation_level=None)
    put(world, 2, 'second')
    other.execute('BEGIN IMMEDIATE')
    other.execute("INSERT INTO catalogue VALUES(3, 'third', '', '{\"rights\": \"free\"}')")
    until('a lock is said', lambda: has_said(said, 'database is locked'))
    other.execute('COMMIT')
    until('after a lock', lambda: title(world, 2) == 'second' and title(world, 3) == 'third')
    resource.prlimit(process.pid, resource.RLIMIT_FSIZE, (SMALL, resource.RLIM_INFINITY))
    put(world, 4, 'fourth', 'long ' * 1000000)
    until('a full disk is said', lambda: has_said(said, 'full') or has_said(said, 'disk I/O error'))
    resource.prlimit(process.pid, resource.RLIMIT_FSIZE, (resource.RLIM_INFINITY, resource.RLIM_INFINITY))
    until('after a full disk', lambda: title(world, 4) == 'fourth')
    wrong = os.path.join(folder, 'wrong.plan')
    with open(wrong, 'w', encoding='utf-8') as file:
        file.write('mode p(?).\np(a) <- q.\n<- p(Edit).\n')
    world.run('replan', wrong, status=5)
    put(world, 5, 'fifth')
    until('after a wrong plan', lambda: title(world, 5) == 'fifth')
    end(process)
    world.run('verify')


def over_postgres(program, folder):
    with Server(folder) as server:
        world = PostgresWorld(folder, program, server)
        process, said = serve(world)
        put(world, 1, 'first')
        until('the first record', lambda: title(world, 1) == 'first')
        server.stop()
        until('a server that is away is said', lambda: has_said(said, 'goes on when that is over'))
        server.start()
        world.db = Psql(server.words)
        put(world, 2, 'second')
        until('after the server was away', lambda: title(world, 2) == 'second')
        end(process)
        world.db.close()


def end(process):
    process.terminate()
    if process.wait(timeout=60) != 0:
        raise SystemExit('up: it ends with %d' % process.returncode)


def main():
    with tempfile.TemporaryDirectory() as folder:
        over_sqlite(sys.argv[1:], folder)
    with tempfile.TemporaryDirectory() as folder:
        over_postgres(sys.argv[1:], folder)
    print('up: a lock, a full disk, a wrong plan, a server that is away: said, nothing lost, and it goes on')


main()
