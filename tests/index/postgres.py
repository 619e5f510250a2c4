#!/usr/bin/env python3
"""postgres.py RECORDS WORKERS KILLS PROGRAM..: the world over a real PostgreSQL server, with several workers that are killed one after another; the oracle is the same."""
import sys
import tempfile
import time

from server import Psql, Server
from world import World, kill

CONF = '''plan {{plan}}
store postgresql:{words}
catalogue catalogue id
batch {{batch}}
text SELECT title, body FROM catalogue WHERE id = :record
Fetch read SELECT fields->>'kind' AS Kind, fields->>'rights' AS Rights FROM catalogue WHERE id = :record
Show write
Ocr ask Ocr
Approval ask Approval
form nothing nothing
form title title
form full title body
form with_ocr title Ocr
'''

WATCH = '''
CREATE TABLE seen(what text, record bigint, version bigint);
CREATE FUNCTION see() RETURNS trigger LANGUAGE plpgsql AS $$ BEGIN
IF NEW.version <> (SELECT version FROM ri_record WHERE record = NEW.record) THEN INSERT INTO seen VALUES('another version', NEW.record, NEW.version); END IF;
IF TG_OP = 'UPDATE' THEN IF NEW.version < OLD.version THEN INSERT INTO seen VALUES('backwards', NEW.record, NEW.version); END IF; END IF;
RETURN NULL; END $$;
CREATE TRIGGER see AFTER INSERT OR UPDATE ON ri_shown FOR EACH ROW EXECUTE FUNCTION see()
'''


class PostgresWorld(World):
    number = 'record'

    def __init__(self, folder, program, server, seed=3):
        self.text, self.words_of_server = CONF.format(words=server.words), server.words
        super().__init__(folder, program, seed)

    def connect(self):
        db = Psql(self.words_of_server)
        db.executescript(WATCH)
        return db

    def damages(self):
        return []


def storm(world, records, workers, kills):
    r = world.r
    running = [world.serve() for _ in range(workers)]
    world.edits(range(1, records + 1))
    killed = 0
    while killed < kills:
        world.edits(sorted({r.randint(1, records) if r.random() < .7 else r.randint(1, 1 + records // 50) for _ in range(r.randint(5, 60))}))
        world.answers(r.choice((0, .05, .3)))
        time.sleep(r.uniform(.05, .4))
        which = r.randrange(workers)
        kill(running[which])
        running[which] = world.serve()
        killed += 1
        if killed == kills // 2:
            world.run('replan', world.other_plan())
            world.run('rebuild', '--beside')
        if killed == kills // 2 + 1:
            world.run('replan', world.plan)
            world.run('rebuild')
    while world.left() or world.answers():
        time.sleep(.1)
    for process in running:
        kill(process)
    world.finish()


def main():
    records, workers, kills = map(int, sys.argv[1:4])
    with tempfile.TemporaryDirectory() as folder, Server(folder) as server:
        world = PostgresWorld(folder, sys.argv[4:], server)
        storm(world, records, workers, kills)
        world.verdict('postgres')
        found = world.json('search', world.db.execute('SELECT title FROM ri_doc LIMIT 1').fetchone()[0].split()[1])
        world.run('verify')
        world.run('rebuild', '--beside')
        world.run('verify')
        world.db.close()
        print('postgres: %d records, %d edits, %d workers, %d kills: all as the oracle says; a search finds %d' % (
            records, sum(world.version.values()), workers, kills, len(found)))


if __name__ == '__main__':
    main()
