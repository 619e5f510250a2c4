"""The world around rissobarm-index: a catalogue whose records are edited and vanish, people and programs who answer late, twice or for an old version; and an oracle, which says
from docs/INDEX.md alone what the index must hold. Nothing here looks at the program."""
import json
import os
import random
import signal
import sqlite3
import subprocess
import time

HERE = os.path.dirname(os.path.abspath(__file__))
PLANS = os.path.join(HERE, '..', '..', 'index', 'plans')
WORDS = [a + b + c for a in 'bl fr gr st tr kn sk'.split() for b in 'aeiouæø' for c in 'd g l m n r s t nd rt'.split()]

CONF = '''plan {plan}
store sqlite:index.db
catalogue catalogue id
batch {batch}
text SELECT title, body FROM catalogue WHERE id = :record
Fetch read SELECT json_extract(fields, '$.kind') AS Kind, json_extract(fields, '$.rights') AS Rights FROM catalogue WHERE id = :record
Show write
Ocr ask Ocr
Approval ask Approval
form nothing nothing
form title title
form full title body
form with_ocr title Ocr
'''

# what must never happen, seen from inside the program's own transactions
WATCH = '''
CREATE TABLE seen(what TEXT, record INTEGER, version INTEGER);
CREATE TRIGGER seen_new AFTER INSERT ON ri_shown WHEN NEW.version <> (SELECT version FROM ri_record WHERE record = NEW.record)
BEGIN INSERT INTO seen VALUES('another version', NEW.record, NEW.version); END;
CREATE TRIGGER seen_old AFTER UPDATE ON ri_shown WHEN NEW.version <> (SELECT version FROM ri_record WHERE record = NEW.record)
BEGIN INSERT INTO seen VALUES('another version', NEW.record, NEW.version); END;
CREATE TRIGGER seen_back AFTER UPDATE ON ri_shown WHEN NEW.version < OLD.version
BEGIN INSERT INTO seen VALUES('backwards', NEW.record, NEW.version); END;
'''


def words(r, n):
    return ' '.join(r.choices(WORDS, k=n))


def answer(what, record, version):
    """What the outside says: a function of record and version, so that the oracle can say it again."""
    r = random.Random(record * 1000003 + version * 7 + len(what))
    if what == 'Ocr':
        return ('ready', 'v%d read %s' % (version, words(r, 60))) if r.random() < .9 else ('torn_page', None)
    return ('granted' if r.random() < .7 else 'denied', None)


def expected(record, version, row):
    """What the index must hold for a record once every answer is in: (form, version, title, body), None for nothing."""
    if row is None:
        return None
    title, body, fields = row
    kind, rights = fields.get('kind'), fields.get('rights')
    if rights != 'free' and answer('Approval', record, version)[0] != 'granted':
        return ('title', version, title, '')
    if kind == 'paper':
        word, text = answer('Ocr', record, version)
        if word == 'ready':
            return ('with_ocr', version, title, text)
    return ('full', version, title, body)


class World:
    text, number = CONF, 'rowid'

    def __init__(self, folder, program, seed=1, plan='portal.plan'):
        self.folder, self.program, self.r = folder, program, random.Random(seed)
        self.plan = os.path.abspath(os.path.join(PLANS, plan))
        self.version = {}
        self.conf(200)
        self.run('init')
        self.db = self.connect()

    def connect(self):
        db = sqlite3.connect(os.path.join(self.folder, 'index.db'), timeout=60, isolation_level=None)
        db.executescript(WATCH)
        return db

    def conf(self, batch, text=None):
        with open(os.path.join(self.folder, 'index.conf'), 'w', encoding='utf-8') as file:
            file.write((text or self.text).format(plan=self.plan, batch=batch))

    def words(self, *args):
        return [*self.program, args[0], '--conf', os.path.join(self.folder, 'index.conf'), *args[1:]]

    def run(self, *args, status=0, **more):
        done = subprocess.run(self.words(*args), capture_output=True, text=True, timeout=600, **more)
        if done.returncode != status:
            raise SystemExit('%s: status %d, not %d: %s%s' % (' '.join(args), done.returncode, status, done.stdout, done.stderr))
        return done.stdout

    def json(self, *args, **more):
        return [json.loads(line) for line in self.run(args[0], '--json', *args[1:], **more).splitlines()]

    def serve(self):
        return subprocess.Popen(self.words('serve'), stdout=subprocess.DEVNULL)

    def serve_and_wait(self):
        """The service, when it has said that it begins to work."""
        process = subprocess.Popen(self.words('serve'), stdout=subprocess.PIPE, text=True)
        process.stdout.readline()
        return process

    def done(self):
        """How many items were done so far, in batches that were committed."""
        return self.db.execute("SELECT coalesce(sum(n), 0) FROM ri_count WHERE name <> 'placed'").fetchone()[0]

    def other_plan(self):
        """Another plan that decides the same for all words of this world."""
        with open(self.plan, encoding='utf-8') as file:
            text = file.read()
        path = os.path.join(self.folder, 'other.plan')
        with open(path, 'w', encoding='utf-8') as file:
            file.write(text.replace('said(granted, yes);', 'said(granted, yes).\nsaid(gladly, yes);'))
        return path

    # ---- edits and answers ----

    def put(self, record):
        """One edit: a new text, or now and then the row is deleted."""
        r, version = self.r, self.version.get(record, 0) + 1
        there = self.db.execute('SELECT 1 FROM catalogue WHERE id = ?', (record,)).fetchone()
        if there and r.random() < .05:
            self.db.execute('DELETE FROM catalogue WHERE id = ?', (record,))
        else:
            fields = {'kind': r.choices(('book', 'paper', 'scroll'), (65, 25, 10))[0], 'rights': r.choices(('free', 'notice', 'strange', None), (85, 10, 4, 1))[0]}
            self.db.execute('INSERT INTO catalogue VALUES(?,?,?,?) ON CONFLICT(id) DO UPDATE SET title = excluded.title, body = excluded.body, fields = excluded.fields',
                            (record, 'v%d %s' % (version, words(r, 6)), 'v%d %s' % (version, words(r, 40)), json.dumps(fields)))
        self.version[record] = version

    def edits(self, records):
        self.db.execute('BEGIN IMMEDIATE')
        for record in records:
            self.put(record)
        self.db.execute('COMMIT')

    def give(self, record, version, name, word, text):
        self.db.execute('INSERT INTO ri_item(record, version, name, word, text, at) VALUES(?,?,?,?,?,?)', (record, version, name, word, text, time.time()))

    def answers(self, share=1.0, wrong=True):
        """Answers a share of the jobs; with each now and then a second answer, which comes too late, and one that nobody asked for."""
        jobs = [job for job in self.db.execute('SELECT record, version, what FROM ri_job').fetchall() if self.r.random() < share]
        self.db.execute('BEGIN IMMEDIATE')
        for record, version, what in jobs:
            if self.db.execute('SELECT count(*) FROM ri_item WHERE record = ? AND name = ?', (record, what)).fetchone()[0]:
                continue
            self.give(record, version, what, *answer(what, record, version))
            if wrong and self.r.random() < .3:
                self.give(record, version, what, 'ready' if what == 'Ocr' else 'granted', 'a second answer')
            if wrong and self.r.random() < .1:
                self.give(record, version, 'Body', 'ocr', 'nobody asked')
        self.db.execute('COMMIT')
        return len(jobs)

    def left(self):
        return self.db.execute('SELECT count(*) FROM ri_item').fetchone()[0]

    def finish(self):
        """Every answer comes in; each time some jobs must go away, so that this ends."""
        self.run('work', '--once')
        for _ in range(30):
            if not self.answers():
                return
            self.run('work', '--once')
        raise SystemExit('finish: there are jobs that no answer ends: %s' % self.db.execute('SELECT record, version, what FROM ri_job LIMIT 3').fetchall())

    # ---- the verdict ----

    def check(self):
        """What is wrong, by the oracle, after everything has come in."""
        db, bad = self.db, []
        shown = {row[0]: row[1:] for row in db.execute('SELECT record, form, version FROM ri_shown')}
        doc = {row[0]: row[1:] for row in db.execute('SELECT %s, title, body FROM ri_doc' % self.number)}
        rows = {row[0]: (row[1], row[2], json.loads(row[3])) for row in db.execute('SELECT id, title, body, CAST(fields AS text) FROM catalogue')}
        for record, version in self.version.items():
            want = expected(record, version, rows.get(record))
            have = shown.get(record, (None, None)) + doc.get(record, (None, None))
            if (want or ('nothing', version, None, None)) != have:
                bad.append('record %d: %s, not %s' % (record, have[:2], want and want[:2]))
        versions = dict(db.execute('SELECT record, version FROM ri_record'))
        bad += ['versions are counted otherwise'] if versions != self.version else []
        bad += ['%d rows left in %s' % (count, table) for table in ('ri_item', 'ri_run', 'ri_job', 'ri_trouble')
                for count in db.execute('SELECT count(*) FROM ' + table).fetchone() if count]
        bad += ['%s: record %d' % row for row in db.execute('SELECT what, record FROM seen LIMIT 5')]
        bad += ['%d documents too many' % len(set(doc) - set(shown))] if set(doc) - set(shown) else []
        return bad + self.damages()

    def damages(self):
        """What is wrong with the database itself; a damaged index is an error."""
        self.db.execute("INSERT INTO ri_doc(ri_doc, rank) VALUES('integrity-check', 1)")
        return ['the database: %s' % row for row in self.db.execute('PRAGMA integrity_check') if row[0] != 'ok']

    def verdict(self, what):
        bad = self.check()
        if bad:
            raise SystemExit('%s: %d wrong: %s' % (what, len(bad), '; '.join(bad[:5])))


def kill(process):
    process.send_signal(signal.SIGKILL)
    process.wait()
