#!/usr/bin/env python3
"""cases.py PROGRAM..: the sentences of docs/INDEX.md one by one, and what goes wrong around the job: a clear error, nothing lost."""
import json
import os
import resource
import sqlite3
import stat
import subprocess
import sys
import tempfile
import time

from world import CONF, World

PROGRAM = sys.argv[1:]


def must(what, have, want):
    if have != want:
        raise SystemExit('%s: %r, not %r' % (what, have, want))


def says(world, words, *args, status):
    """A command that must end with a status and say these words."""
    done = subprocess.run(world.words(*args), capture_output=True, text=True, timeout=120)
    if done.returncode != status or words not in done.stdout + done.stderr:
        raise SystemExit('%s: status %d, not %d, and it says %s%s' % (' '.join(args), done.returncode, status, done.stdout, done.stderr))


def book(world, record, kind='book', rights='free', title='a title', body='a body'):
    world.db.execute('INSERT OR REPLACE INTO catalogue VALUES(?,?,?,?)', (record, title, body, json.dumps({'kind': kind, 'rights': rights})))


def shown(world, record):
    row = world.db.execute('SELECT form, version FROM ri_shown WHERE record = ?', (record,)).fetchone()
    doc = world.db.execute('SELECT title, body FROM ri_doc WHERE rowid = ?', (record,)).fetchone()
    return (row or (None, None)) + (doc or (None, None))


def answers(world):
    """3.3, 1.5, 2.2: the first answer wins with its text; what nobody asked for is dropped; a strange word is `other`."""
    book(world, 1, 'paper', 'notice')
    book(world, 2, 'book', 'free')
    book(world, 3, 'book', 'notice')
    world.run('work', '--once')
    must('early', shown(world, 1), ('title', 1, 'a title', ''))
    for text in ('first', 'second'):
        world.give(1, 1, 'Ocr', 'ready', text)
        world.run('work', '--once')
    world.give(1, 1, 'Approval', 'granted', None)
    world.give(1, 1, 'Approval', 'denied', None)
    world.give(2, 1, 'Ocr', 'ready', 'nobody asked')
    world.give(3, 1, 'Approval', "'; DROP TABLE ri_run; --", None)
    world.give(3, 1, 'Place', 'full', None)
    world.give(99, 1, 'Approval', 'granted', None)
    world.run('work', '--once')
    must('the first answer', shown(world, 1), ('with_ocr', 1, 'a title', 'first'))
    must('not asked for', shown(world, 2), ('full', 1, 'a title', 'a body'))
    must('a strange word', shown(world, 3), ('title', 1, 'a title', ''))
    must('its log', world.json('why', '3')[0]['shown']['log'], 'Edit=changed; Kind=other Rights=notice; Approval=other')
    must('left', world.db.execute('SELECT (SELECT count(*) FROM ri_job) + (SELECT count(*) FROM ri_run) + (SELECT count(*) FROM ri_trouble)').fetchone()[0], 0)


def feed(world):
    """Lines with a cursor; a line that is no good; a last line without its end; records that vanish."""
    path = os.path.join(world.folder, 'lines')
    with open(path, 'w', encoding='utf-8') as file:
        file.write('{"id": 5, "title": "fem", "body": "b", "kind": "book", "rights": "free"}\n\n{"id": 6, "title": "seks", "kind": "book", "rights": "free"}\n{"id": 7, "ti')
    must('two lines', world.json('edit', path)[0]['taken'], 2)
    with open(path, 'a', encoding='utf-8') as file:
        file.write('tle": "sju", "rights": "free"}\nno json\n{"id": 8, "rights": "free"}\n')
    says(world, 'line 5 is no good', 'edit', path, status=8)
    says(world, 'line 5 is no good', 'edit', path, status=8)
    with open(path, encoding='utf-8') as file:
        text = file.read().replace('no json', '{"id": 5, "gone": true}')
    with open(path, 'w', encoding='utf-8') as file:
        file.write(text)
    must('the rest', world.json('edit', path)[0]['taken'], 2)
    must('nothing twice', world.json('edit', path)[0]['taken'], 0)
    world.run('work', '--once')
    must('gone', shown(world, 5), ('nothing', 2, None, None))
    must('seven', shown(world, 7), ('full', 1, 'sju', ''))
    for bad in ('[1]', '{"id": "x"}', '{"id": 0}', '{"id": 1.5}', '{}', '"a"'):
        done = subprocess.run(world.words('edit', '-'), input=bad + '\n', capture_output=True, text=True)
        must(bad, done.returncode, 8)


def search(world):
    """Folded letters, and words that FTS5 would take for its own."""
    book(world, 20, title='Bjørn på Łódź', body='smørrebrød, Æsop; café "quoted" Straße')
    world.run('work', '--once')
    for words in ('bjorn', 'BJØRN', 'lodz', 'smorrebrod', 'aesop', 'cafe', 'café', 'strasse', 'bjørn cafe', 'quoted"'):
        must(words, [found['record'] for found in world.json('search', words)], [20])
    for words in ('AND', 'OR NOT', '(', '"', 'title:x', 'a*', 'NEAR(a b)', "'; DROP TABLE ri_doc; --", '-x', '^', '\\'):
        must(words, [found['record'] for found in world.json('search', '--', words)], [])


def clocks_and_calls(world):
    """A clock answers; a program that fails, hangs or writes garbage is tried again, and is trouble after its tries."""
    script = os.path.join(world.folder, 'program')
    with open(script, 'w', encoding='utf-8') as file:
        file.write('#!/bin/sh\nexec 2>/dev/null\nn=$(cat "%s/tries" | wc -c)\nprintf x >>"%s/tries"\ncase $3:$n in\n31:0) exit 3 ;;\n31:*) printf "Ocr = ready\\ntext Ocr\\nread by $1 $2 $3 $4\\n" ;;\n'
                   '32:*) echo "what = is this" ;;\n33:*) sleep 60 ;;\nesac\n' % (world.folder, world.folder))
    os.chmod(script, stat.S_IRWXU)
    world.conf(200, CONF.replace('Ocr ask Ocr', 'Ocr call Ocr within 1s tries 2 after 5s Ocr = other : ' + script).replace('Approval ask Approval', 'Approval ask Approval after 1s Approval = granted'))
    book(world, 31, 'paper')
    began = time.time()
    while shown(world, 31)[0] != 'with_ocr' and time.time() < began + 30:
        world.run('work', '--once')
        time.sleep(.2)
    must('a program', shown(world, 31), ('with_ocr', 1, 'a title', 'read by Ocr page 31 1\n'))
    book(world, 32, 'paper')
    book(world, 33, 'paper', 'notice')
    world.run('work', '--once')
    while world.db.execute('SELECT count(*) FROM ri_run').fetchone()[0] and time.time() < began + 60:
        world.run('work', '--once')
        time.sleep(.2)
    must('garbage', shown(world, 32)[0], 'full')
    must('hangs', shown(world, 33)[0], 'full')
    world.conf(200)


def trouble(world):
    """A read that fails is trouble of its record alone, and a retry is an edit."""
    world.conf(200, CONF.replace("json_extract(fields, '$.rights')", "CASE id WHEN 41 THEN json_extract('no json', '$.a') ELSE 'free' END"))
    book(world, 41)
    book(world, 42)
    world.run('work', '--once')
    must('the other record', shown(world, 42)[0], 'full')
    told = world.json('trouble')
    must('trouble', [(line['record'], line['version']) for line in told], [(41, 1)])
    world.conf(200)
    world.run('retry', '--all')
    world.run('work', '--once')
    must('tried again', shown(world, 41)[:2], ('full', 2))
    must('none left', world.json('trouble'), [])
    world.conf(200, CONF.replace('SELECT title, body', "SELECT CASE id WHEN 43 THEN json_extract('no json', '$.a') ELSE title END AS title, body"))
    book(world, 43)
    book(world, 44)
    world.run('work', '--once')
    must('a text that cannot be read', (shown(world, 43)[0], shown(world, 44)[0]), (None, 'full'))
    must('its trouble', 'malformed JSON' in world.json('trouble')[0]['why'], True)
    world.conf(200)
    says(world, 'no such record', 'retry', '4711', status=9)


def house(world):
    """A table of the house's own, with rows before the job comes, another key, and rows that get another number."""
    world.db.execute('CREATE TABLE books(nr INTEGER PRIMARY KEY, titel TEXT)')
    world.db.execute("INSERT INTO books VALUES(91, 'there before'), (92, 'another')")
    with open(os.path.join(world.folder, 'index.conf'), 'w', encoding='utf-8') as file:
        file.write('plan %s\nstore sqlite:house.db\ncatalogue books nr\ntext SELECT titel FROM books WHERE nr = :record\nform nothing nothing\nform full titel\n' % (world.plan.replace('portal', 'plain')))
    world.db.execute('VACUUM INTO ?', (os.path.join(world.folder, 'house.db'),))
    world.db = sqlite3.connect(os.path.join(world.folder, 'house.db'), isolation_level=None)
    for table in ('seen', 'ri_plan', 'ri_record', 'ri_item', 'ri_shown'):
        world.db.execute('DROP TABLE ' + table)
    world.run('init')
    world.run('work', '--once')
    must('rows before', (shown(world, 91), shown(world, 92)), (('full', 1, 'there before', ''), ('full', 1, 'another', '')))
    world.db.execute('UPDATE books SET nr = 93 WHERE nr = 92')
    world.db.execute("UPDATE books SET titel = 'edited' WHERE nr = 91")
    world.run('work', '--once')
    must('another number', (shown(world, 91), shown(world, 92), shown(world, 93)), (('full', 2, 'edited', ''), ('nothing', 2, None, None), ('full', 1, 'another', '')))
    says(world, 'here the catalogue is books', 'edit', '-', status=11)
    world.run('verify')


def lost_states(world):
    """5.3: states that are lost or damaged are made again, and nobody notices."""
    book(world, 51, 'paper', 'notice')
    world.run('work', '--once')
    world.db.execute("UPDATE ri_state SET saved = x'00'")
    world.give(51, 1, 'Approval', 'granted', None)
    world.run('work', '--once')
    world.db.execute('DELETE FROM ri_state')
    world.give(51, 1, 'Ocr', 'ready', 'read')
    world.run('work', '--once')
    must('made again', shown(world, 51), ('with_ocr', 1, 'a title', 'read'))


def replan(world):
    """5.4: another plan; answers in the log count, and nobody is asked twice."""
    book(world, 61, 'paper', 'notice')
    world.run('work', '--once')
    world.give(61, 1, 'Ocr', 'ready', 'read')
    world.run('work', '--once')
    asked = world.db.execute('SELECT what, at FROM ri_job').fetchall()
    with open(world.plan, encoding='utf-8') as file:
        text = file.read()
    other = world.other_plan()
    world.run('replan', other)
    must('asked once', world.db.execute('SELECT what, at FROM ri_job').fetchall(), asked)
    world.give(61, 1, 'Approval', 'gladly', None)
    world.run('work', '--once')
    must('by the new plan', shown(world, 61), ('with_ocr', 1, 'a title', 'read'))
    world.run('replan', world.plan)
    with open(other, 'w', encoding='utf-8') as file:
        file.write(text.replace('final(part, Body, title).', 'final(part, Body, tittle).'))
    says(world, 'tittle, which has no form', 'replan', other, status=5)
    says(world, 'line 1, column 6: TEXT', 'check', os.path.join(world.folder, 'index.conf'), status=5)


def verify(world):
    """Damages are found and mended."""
    for record in range(71, 77):
        book(world, record)
    world.run('work', '--once')
    world.run('verify')
    db = world.db
    db.execute('DELETE FROM ri_doc WHERE rowid = 71')
    db.execute("UPDATE ri_doc SET body = 'another' WHERE rowid = 72")
    db.execute('UPDATE ri_record SET version = 9 WHERE record = 73')
    db.execute('DELETE FROM ri_shown WHERE record = 74')
    db.execute("INSERT INTO ri_doc(rowid, title) VALUES(4000, 'stray')")
    triggers = db.execute("SELECT name, sql FROM sqlite_master WHERE name IN ('ri_inserted', 'ri_deleted')").fetchall()
    for name, _ in triggers:
        db.execute('DROP TRIGGER ' + name)
    book(world, 77)
    db.execute('DELETE FROM catalogue WHERE id = 75')
    for _, sql in triggers:
        db.execute(sql)
    told = world.json('verify', status=1)[0]
    must('found', {key: told[key] for key in ('torn', 'stale', 'missing', 'left over', 'unknown', 'vanished')},
         {'torn': 3, 'stale': 1, 'missing': 1, 'left over': 2, 'unknown': 1, 'vanished': 1})
    world.run('verify', '--repair')
    world.run('work', '--once')
    world.run('verify')
    must('mended', (shown(world, 71)[0], shown(world, 75)[0], shown(world, 77)[0]), ('full', 'nothing', 'full'))
    book(world, 78, 'paper', 'strange')
    world.run('work', '--once')
    world.give(78, 1, 'Ocr', 'ready', 'read')
    world.give(78, 1, 'Approval', 'granted', None)
    world.run('work', '--once')
    book(world, 78, 'book', 'strange', 'another title')
    world.run('work', '--once')
    must('an older version stays until there is an answer', shown(world, 78), ('with_ocr', 1, 'a title', 'read'))
    for more in ((), ('--beside',)):
        before = db.execute('SELECT rowid, title, body, folded FROM ri_doc ORDER BY rowid').fetchall()
        world.run('rebuild', *more)
        must('rebuilt', db.execute('SELECT rowid, title, body, folded FROM ri_doc ORDER BY rowid').fetchall(), before)
        world.run('verify')


def around(world):
    """A database that another program has locked, a full disk, no database: a clear error, nothing lost."""
    book(world, 81)
    db = sqlite3.connect(os.path.join(world.folder, 'index.db'), isolation_level=None)
    db.execute('BEGIN IMMEDIATE')
    says(world, 'database is locked', 'work', '--once', status=10)
    db.execute('ROLLBACK')
    book(world, 82, body='long ' * 2000000)
    done = subprocess.run(world.words('work', '--once'), capture_output=True, text=True, preexec_fn=lambda: resource.setrlimit(resource.RLIMIT_FSIZE, (1 << 20, 1 << 20)))
    must('a full disk: ' + done.stderr, done.returncode, 10)
    must('nothing lost', world.left(), 2)
    world.run('work', '--once')
    must('afterwards', shown(world, 81)[0], 'full')
    says(world, 'usage', 'why', status=11)
    says(world, 'no such option', 'status', '--repair', status=11)
    world.conf(200, CONF + 'Thumb read SELECT 1 AS Nobody\nform strange title\n')
    says(world, 'the goal has no DoThumb', 'check', status=5)
    world.conf(200, CONF.replace('Approval ask Approval\n', ''))
    says(world, 'has no line for Approval', 'check', status=5)
    world.conf(200, CONF.replace('form full title body', 'form full title bdy'))
    says(world, 'bdy is neither', 'check', status=5)
    world.conf(200, CONF.replace('form title title\n', ''))
    says(world, 'DoShow can be title, which has no form', 'check', status=5)
    for line, words in (('batch 20x', 'a batch has 1 to 10000'), ('synchronous perhaps', 'full or normal'), ('colour red', 'no line begins so'), ('Ocr shout', 'read, write, ask or call')):
        world.conf(200, CONF.replace('Ocr ask Ocr\n', '') + line + '\n')
        says(world, words, 'check', status=5)
    world.conf(200, CONF.replace('Ocr ask Ocr', 'Ocr ask Ocr Edit'))
    says(world, 'Edit cannot be answered', 'check', status=5)
    world.conf(200, CONF.replace('Ocr ask Ocr', 'Ocr ask Ocr Kind'))
    says(world, 'line 8: Kind is bound already whenever Ocr is asked for', 'check', status=5)
    world.conf(200, CONF.replace('Ocr ask Ocr', 'Ocr ask Ocr after 3d Approval = granted'))
    says(world, 'Approval is no answer of Ocr', 'check', status=5)
    world.conf(200, CONF.replace('Ocr ask Ocr', 'Ocr ask Ocr after 3x Ocr = none'))
    says(world, 'line 8: after which time', 'check', status=5)
    world.conf(200)


def main():
    cases = (answers, feed, search, clocks_and_calls, trouble, house, lost_states, replan, verify, around)
    chosen = [case for case in cases if os.environ.get('CASES', case.__name__) == case.__name__]
    for case in chosen:
        with tempfile.TemporaryDirectory() as folder:
            case(World(folder, PROGRAM))
    print('cases: %d, each as docs/INDEX.md says' % len(chosen))


main()
