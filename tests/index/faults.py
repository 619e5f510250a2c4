#!/usr/bin/env python3
"""faults.py ARCHIVE [RUN..]: plants faults in copies of index/, one at a time; the tests must find each. RUN are the words before a program, such as an emulator."""
import os
import shutil
import subprocess
import sys
import tempfile

HERE = os.path.dirname(os.path.abspath(__file__))
ROOT = os.path.dirname(os.path.dirname(HERE))

FAULTS = [
    ('the queue is emptied in its own transaction', 'work.c', '    do_items(service, items, count);\n',
     '    { unsigned k; for (k = 0; k < count; k++) store_do(store, "DELETE FROM ri_item WHERE seq = $1", "i", items[k].seq); store_commit(store); store_begin(store); }\n'
     '    do_items(service, items, count);\n', ['storm']),
    ('the version is not looked at', 'run.c', '    if (newest != item->version)\n', '    if (newest < item->version)\n', ['race']),
    ('an answer is supplied twice', 'run.c', '    if (!may_answer(service, turn->move, item->name)) {\n', '    if (0) {\n', ['answers']),
    ('a state is remembered wrong', 'moves.c', 'strcmp(move->supplied, supplied) != 0))', 'strlen(move->supplied) != strlen(supplied)))', ['race'],
     ('fnv(fnv(14695981039346656037u, &before, sizeof before), supplied, strlen(supplied))', 'fnv(fnv(14695981039346656037u, &before, sizeof before), supplied, 0)')),
]


def tests(program):
    return {
        'storm': [os.path.join(HERE, 'storm.py'), '600', '20', *program],
        'race': [os.path.join(HERE, 'race.py'), *program],
        'answers': [os.path.join(HERE, 'cases.py'), *program],
    }


def plant(folder, name, old, new):
    path = os.path.join(folder, name)
    with open(path, encoding='utf-8') as file:
        text = file.read()
    if text.count(old) != 1:
        raise SystemExit('faults: %s does not have once: %s' % (name, old))
    with open(path, 'w', encoding='utf-8') as file:
        file.write(text.replace(old, new))


def found(archive, run, fault):
    """What the test said that found a fault, or None."""
    name, file, old, new, which, *more = fault
    with tempfile.TemporaryDirectory() as folder:
        source, program = os.path.join(folder, 'index'), os.path.join(folder, 'program')
        shutil.copytree(os.path.join(ROOT, 'index'), source)
        plant(source, file, old, new)
        for pair in more:
            plant(source, file, *pair)
        subprocess.run([os.path.join(ROOT, 'index', 'build'), archive, program], check=True, env={**os.environ, 'INDEX_FROM': source})
        for test in which:
            done = subprocess.run([sys.executable, *tests([*run, program])[test]], capture_output=True, text=True, env={**os.environ, 'CASES': 'answers'})
            if done.returncode != 0:
                return (done.stdout + done.stderr).strip().splitlines()[-1]
    return None


def main():
    archive, run = os.path.abspath(sys.argv[1]), sys.argv[2:]
    for fault in FAULTS:
        said = found(archive, run, fault)
        if said is None:
            raise SystemExit('faults: not found: ' + fault[0])
        print('fault: %s: found: %s' % (fault[0], said[:160]))


main()
