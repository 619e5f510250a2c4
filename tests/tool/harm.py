#!/usr/bin/env python3
"""harm.py PROGRAM [SEED]: files with some bytes changed, for every command that reads one: it ends with one of its statuses, and says why where it refuses. Of a saved run each byte is changed once."""
import os
import random
import shutil
import subprocess
import sys
import tempfile

ROOT = os.path.dirname(os.path.dirname(os.path.dirname(os.path.abspath(__file__))))
PROGRAM, TRIES, LIMIT = os.path.abspath(sys.argv[1]), 150, 20
# a process that waits for a variable of a clause: the rows have a field of every sort
EVER = 'mode p.\nmode q(?).\np <- q(X).\nq(a).\n<- p.\n'
PLANS = {'c6': 'tests/tool/plans/c6.plan', 'index': 'examples/index.plan', 'wide': 'bench/plans/wide.plan'}
PIECES = [b'\n', b'.', b';', b'\0', b'(', b'9', b'A', b'a', b'<-', b' 99999999999999999999']
# what is done with a file `m` made out of one of a plan `P`
USES = {
    'plan': ['check m', 'check m --json', 'print m', 'run m --steps 3000', 'show m --steps 300', 'compile m -o o --names o2', 'why 3 m --steps 300'],
    'image': ['check m', 'print m', 'check m --names P.names', 'print m --names P.names', 'run m --steps 3000', 'show m --dot --steps 300'],
    'names': ['print P.image --names m', 'run P.image --names m --supply A=new --steps 500 --save o', 'show P.image --names m --steps 300 --json'],
    'run': ['resume m --steps 3000', 'show m', 'show m --all --json', 'show m --all --dot', 'why 5 m', 'resume m --plan P.plan --steps 100', 'replay m P.trace'],
    'trace': ['replay P.plan m', 'replay P.run m', 'replay P.image m --json --save o'],
    'arrivals': ['run P.plan --arrivals m', 'resume P.run --arrivals m --json', 'show P.plan --arrivals m --strict'],
}


def call(words):
    return subprocess.run([PROGRAM] + words.split(), stdin=subprocess.DEVNULL, stdout=subprocess.PIPE, stderr=subprocess.PIPE, timeout=LIMIT)


def prepare():
    """Each plan with its image, names, saved run, trace and arrivals."""
    for name, path in PLANS.items():
        shutil.copy(os.path.join(ROOT, path), name + '.plan')
        shutil.copy(os.path.join(ROOT, 'tests/tool/plans/late.arrivals'), name + '.arrivals')
        call('compile %s.plan -o %s.image --names %s.names' % (name, name, name))
        call('run %s.plan --steps 200 --save %s.run --trace %s.trace' % (name, name, name))


def changed(row):
    """A few changes: a byte, a bit, a piece taken out, put in or doubled, the end cut off."""
    for _ in range(random.choice((1, 1, 1, 2, 4, 16))):
        row = row or bytearray(b'x')
        at, sort = random.randrange(len(row)), random.randrange(6)
        if sort == 0:
            row[at] = random.randrange(256)
        elif sort == 1:
            row[at] ^= 1 << random.randrange(8)
        elif sort == 2:
            del row[at:at + random.choice((1, 1, 2, 10, 100))]
        elif sort == 3:
            row[at:at] = random.choice(PIECES)
        elif sort == 4:
            row[at:at] = row[at // 2:at // 2 + random.randrange(40)]
        elif random.randrange(3) == 0:
            del row[at:]
    return row


def judge(words, row):
    with open('m', 'wb') as file:
        file.write(row)
    done = call(words)
    if done.returncode not in range(12) or (done.returncode >= 5 and not done.stderr and not done.stdout):
        sys.exit('harm: %s ends with %d and says %s; the file is %s' % (words, done.returncode, done.stderr.decode(errors='replace')[:2000], bytes(row).hex()))
    return done.returncode


def by_chance():
    """How often each status was seen."""
    seen = {}
    for _ in range(TRIES):
        name, sort = random.choice(sorted(PLANS)), random.choice(sorted(USES))
        words = random.choice(USES[sort]).replace('P.', name + '.')
        with open('%s.%s' % (name, sort), 'rb') as file:
            status = judge(words, changed(bytearray(file.read())))
        seen[status] = seen.get(status, 0) + 1
    return seen


def each_byte():
    """A saved run with one byte of its rows changed: how many, and how many of them are taken up."""
    with open('ever.plan', 'w') as file:
        file.write(EVER)
    call('run ever.plan --save ever.run')
    with open('ever.run', 'rb') as file:
        row = bytearray(file.read())
    first = row.index(b'\n', row.rindex(b'\nrun ') + 1) + 1
    taken = 0
    for at in range(first, len(row) - 1):
        taken += judge('show m --all', row[:at] + bytes([row[at] ^ 0xAC]) + row[at + 1:]) < 5
    return len(row) - 1 - first, taken


def main():
    random.seed(int(sys.argv[2]) if len(sys.argv) > 2 else 1)
    with tempfile.TemporaryDirectory() as folder:
        os.chdir(folder)
        prepare()
        seen, (count, taken) = by_chance(), each_byte()
        os.chdir('/')
    print('harm: %d changed files, statuses %s; a byte of a saved run changed in %d places, %d times shown all the same' % (
        TRIES, ', '.join('%d %d times' % pair for pair in sorted(seen.items())), count, taken))


main()
