#!/usr/bin/env python3
"""machines.py RECORDS KILLS PROGRAM..: two machines' worth of workers over one PostgreSQL server: two network namespaces, two workers in each, which reach the server by TCP alone. Only root
can make namespaces."""
import os
import subprocess
import sys
import tempfile

from postgres import PostgresWorld, storm
from server import Server


def ip(*words):
    subprocess.run(['ip', *words], check=True)


class Machine:
    """A network namespace with one link to the server's side."""

    def __init__(self, number):
        self.name, self.net = 'ri%d-%d' % (os.getpid() % 100000, number), '10.213.%d' % (2 * (os.getpid() % 120) + number)
        self.server = self.net + '.1'

    def __enter__(self):
        inside, outside = 'i' + self.name, 'o' + self.name
        ip('netns', 'add', self.name)
        ip('link', 'add', outside, 'type', 'veth', 'peer', 'name', inside)
        ip('link', 'set', inside, 'netns', self.name)
        ip('addr', 'add', self.server + '/24', 'dev', outside)
        ip('link', 'set', outside, 'up')
        ip('-n', self.name, 'addr', 'add', self.net + '.2/24', 'dev', inside)
        ip('-n', self.name, 'link', 'set', inside, 'up')
        return self

    def __exit__(self, *error):
        ip('netns', 'del', self.name)


class FarWorld(PostgresWorld):
    """Workers run on one machine and on the other, in turn."""

    def __init__(self, folder, program, server, machines):
        self.machines, self.started = machines, 0
        super().__init__(folder, program, server)

    def serve(self):
        machine = self.machines[self.started % len(self.machines)]
        self.started += 1
        path = os.path.join(self.folder, machine.name + '.conf')
        with open(os.path.join(self.folder, 'index.conf'), encoding='utf-8') as file:
            text = file.read().replace(self.words_of_server, 'host=%s port=5432 user=postgres dbname=postgres' % machine.server)
        with open(path, 'w', encoding='utf-8') as file:
            file.write(text)
        # exec, so that a kill is one of the worker itself
        return subprocess.Popen(['ip', 'netns', 'exec', machine.name, *self.program, 'serve', '--conf', path], stdout=subprocess.DEVNULL)


def main():
    records, kills = map(int, sys.argv[1:3])
    if os.getuid() != 0:
        raise SystemExit('machines: only root can make network namespaces')
    with tempfile.TemporaryDirectory() as folder, Machine(0) as one, Machine(1) as two, Server(folder, '%s,%s' % (one.server, two.server)) as server:
        world = FarWorld(folder, sys.argv[3:], server, (one, two))
        storm(world, records, 4, kills)
        world.verdict('machines')
        world.db.close()
        print('machines: %d records, %d edits, two workers in each of two network namespaces, %d kills: all as the oracle says' % (
            records, sum(world.version.values()), kills))


main()
