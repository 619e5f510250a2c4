#!/usr/bin/env python3
"""stopped.py PROGRAM PLAN: a run that waits for arrivals and is stopped, from the keyboard, by the system or by a terminal that goes away, is saved as it stands, and one that could go on is saved where it is;
a stop that was ignored from the start stays so; and on a terminal a long run tells how far it is."""
import contextlib
import fcntl
import os
import pty
import signal
import subprocess
import sys
import tempfile
import termios
import time

PROGRAM, PLAN = map(os.path.abspath, sys.argv[1:])
SAVED, PATIENCE, MOMENT, SET_PIPE_SIZE = 'stopped.run', 2, 0.2, 1031
STOPS = (signal.SIGINT, signal.SIGTERM, signal.SIGHUP)
# it goes round and round until there is no room
ROUND = 'mode p.\nmode q(?).\np <- q(a).\nq(a) <- p.\n<- p.\n'


def wrong(words):
    sys.exit('tool: %s' % words)


def heard(ignored=()):
    """For a child: stops are heard, whatever is ignored here, but for those."""
    for number in STOPS:
        signal.signal(number, signal.SIG_IGN if number in ignored else signal.SIG_DFL)


def run(*words, **more):
    more.setdefault('preexec_fn', heard)
    return subprocess.Popen([PROGRAM, 'run', PLAN, *words], stdout=subprocess.PIPE, **more)


def whole():
    """The run as it is saved where nothing comes in and nobody stops it."""
    run('--save', SAVED).communicate()
    with open(SAVED, 'rb') as file:
        return file.read()


def stop(number, wanted):
    """Stops a run while it waits for its first arrival, which never comes."""
    if os.path.exists(SAVED):
        os.remove(SAVED)
    job = run('--arrivals', '-', '--slice', '1', '--save', SAVED, stdin=subprocess.PIPE)
    wait_for(job)
    job.send_signal(number)
    status = job.wait(20)
    if status != 2:
        wrong('stopped by %s it ends with %d' % (number.name, status))
    with open(SAVED, 'rb') as file:
        if file.read() != wanted:
            wrong('stopped by %s it saves another run' % number.name)
    job.communicate()


def stop_on_its_way(number):
    """Stops a run that could go on, while it tells how far it is and is not listened to: it is saved, and goes on from there."""
    with open('round.plan', 'w') as file:
        file.write(ROUND)
    ours, theirs = os.pipe()
    fcntl.fcntl(theirs, SET_PIPE_SIZE, 4096)
    job = subprocess.Popen([PROGRAM, 'run', 'round.plan', '--slice', '1', '--progress', '--save', SAVED], stdout=subprocess.PIPE, stderr=theirs, preexec_fn=heard)
    os.close(theirs)
    wait_for(job)
    job.send_signal(number)
    with open(ours, 'rb') as progress:
        progress.read()
    told = job.communicate(timeout=20)[0].decode()
    ends = [subprocess.run([PROGRAM] + words, stdout=subprocess.PIPE) for words in (['run', 'round.plan'], ['resume', SAVED])]
    if job.returncode != 4 or not told.startswith('budget after ') or ends[0].returncode != 3 or (ends[0].stdout, 3) != (ends[1].stdout, ends[1].returncode):
        wrong('stopped on its way by %s it ends with %d, or cannot go on: %s' % (number.name, job.returncode, told))


def take_terminal():
    """Has a child a terminal of its own, which is its standard input."""
    os.setsid()
    fcntl.ioctl(0, termios.TIOCSCTTY, 0)


def terminal_gone(wanted, ignored):
    """A run whose terminal goes away while it waits for an arrival from there, where SIGHUP is ignored too."""
    os.remove(SAVED)
    ours, theirs = pty.openpty()

    def begin():
        take_terminal()
        heard([signal.SIGHUP] if ignored else [])

    job = run('--arrivals', '-', '--save', SAVED, stdin=theirs, preexec_fn=begin)
    os.close(theirs)
    wait_for(job)
    os.close(ours)
    job.communicate(timeout=20)
    with open(SAVED, 'rb') as file:
        if job.returncode != 2 or file.read() != wanted:
            wrong('when its terminal goes away it ends with %d, or saves another run' % job.returncode)


def stays_ignored(number):
    """A stop that is ignored, as SIGHUP by nohup, stays so: the run takes its arrival. The others are heard."""
    for sent in STOPS:
        job = run('--arrivals', '-', stdin=subprocess.PIPE, preexec_fn=lambda: heard([number]))
        wait_for(job)
        job.send_signal(sent)
        if sent == number:
            time.sleep(MOMENT)
            job.communicate(b'Key = one\n', timeout=20)
        if job.wait(20) != (0 if sent == number else 2):
            wrong('where %s is ignored, %s ends it with %d' % (number.name, sent.name, job.returncode))


def in_background():
    """A job that a shell has put behind it is not stopped from the keyboard: the shell has had SIGINT ignored."""
    os.mkfifo('arrivals')
    words = '"$0" run "$1" --arrivals arrivals & echo $!; wait $!'
    shell = subprocess.Popen(['sh', '-c', words, PROGRAM, PLAN], stdout=subprocess.PIPE, preexec_fn=heard)
    job = int(shell.stdout.readline())
    with contextlib.suppress(BrokenPipeError), open('arrivals', 'wb') as arrivals:
        began = time.time()
        while not waits(job) and time.time() - began < PATIENCE:
            time.sleep(0.01)
        os.kill(job, signal.SIGINT)
        time.sleep(MOMENT)
        arrivals.write(b'Key = one\n')
    told = shell.communicate(timeout=20)[0].decode()
    if shell.returncode != 0 or 'success after' not in told:
        wrong('in the background SIGINT ends it with %d: %s' % (shell.returncode, told))


def waits(pid):
    """Whether a program sleeps at a pipe or a terminal; a system that does not tell leaves only to be patient."""
    with open('/proc/%d/wchan' % pid) as file:
        place = file.read()
    return any(word in place for word in ('pipe', 'tty', 'woken'))


def wait_for(job):
    began = time.time()
    while not waits(job.pid) and time.time() - began < PATIENCE:
        time.sleep(0.01)


def on_terminal():
    """What a run prints on a terminal whose second slice comes more than a second behind the first."""
    ours, theirs = pty.openpty()
    job = run('--arrivals', '-', '--steps', '20', stdin=subprocess.PIPE, stderr=theirs)
    os.close(theirs)
    time.sleep(1.1)
    job.communicate(b'Key = one\n')
    shown = os.read(ours, 4096).decode()
    if '\r' not in shown or 'steps, ' not in shown or not shown.endswith(' \r'):
        wrong('on a terminal it shows %r' % shown)


def main():
    with tempfile.TemporaryDirectory() as folder:
        os.chdir(folder)
        wanted = whole()
        for number in STOPS:
            stop(number, wanted)
            stop_on_its_way(number)
            stays_ignored(number)
        for ignored in (False, True):
            terminal_gone(wanted, ignored)
        in_background()
        on_terminal()
        os.chdir('/')
    print('tool: stopped by three signals, or by a terminal that goes away, it saves the run; what is ignored stays so; on a terminal it tells how far it is')


main()
