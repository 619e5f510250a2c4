#!/usr/bin/env python3
"""whole.py PROGRAM MOMENTS [SEED]: whatever stops a command that writes files, each file is the old one or the new one, whole; nothing is left beside but by a kill, and that the next writer
takes; files that do not belong together are not taken for a pair, and what others have put beside is left alone. MOMENTS is the program with the calls of moments.c around it.

Each command below is stopped at each of its calls: killed, and by a call that fails; told to stop at every second one; killed by chance; past a limit on the size of files; on /dev/full; and, where one can be
mounted, on a small disk (whole.py PROGRAM MOMENTS --disk FOLDER, in a space of its own)."""
import errno
import fcntl
import itertools
import os
import random
import resource
import shutil
import signal
import subprocess
import sys
import tempfile
import time

ROOT = os.path.dirname(os.path.dirname(os.path.dirname(os.path.abspath(__file__))))
PROGRAM, MOMENTS = map(os.path.abspath, sys.argv[1:3])
BESIDE, PAGE, KILLS, CALLS_MOST, PATIENCE, OTHER_USER, STRANGER = '.rissobarm-new', 4096, 12, 60, 20, 65534, 65533
STOPS = (signal.SIGINT, signal.SIGTERM, signal.SIGHUP)
# calls that must not fail, for each file: open of its folder and of the file beside, truncate, write, sync; then, file by file, rename and sync of the folder
CALLS_BEFORE, CALLS_IN_PLACE = 5, 2
# a name of more bytes than PLAIN_MOST gives way to a number beside it; LONGEST are two of as many bytes as a disk takes, of which only the last ones differ
PLAIN_MOST, LONGEST = 100, ['\u00e9' * 127 + end for end in 'ab']
# two plans with as many names and with images of one length: without a mark, either list goes with either image
OLD = 'mode page(?,^).\npage(a, b).\npage(a, c).\npage(d, c).\n<- page(Key, Page).\n'
NEW = 'mode leaf(?,^).\nleaf(k, l).\nleaf(m, l).\nleaf(n, k).\n<- leaf(Key, Page).\n'


class Command:
    """Words, the status at a good end, and the files in the order in which they are renamed; their old and new bytes, None for no file."""

    def __init__(self, name, words, status, files, old, fits):
        self.name, self.words, self.status, self.files, self.fits = name, words.split(), status, files, fits
        self.old = [None if path is None else read(path) for path in old]
        self.reset()
        if run(self.words)[0] != status:
            wrong(self, 'ends otherwise when nothing stops it')
        self.new = self.stand()

    def reset(self):
        """The old files, and nothing beside them."""
        for path, bytes_ in zip(self.files, self.old):
            write(path, bytes_)
        for path in left_beside():
            os.remove(path)

    def stand(self):
        return [read(path) if os.path.exists(path) else None for path in self.files]

    def state(self):
        """How many files are new: the first ones, the others being old; anything else is wrong."""
        now = self.stand()
        for count in range(len(now) + 1):
            if now == self.new[:count] + self.old[count:]:
                return count
        wrong(self, 'leaves files that are neither old nor new, or in another order')


def wrong(command, words):
    sys.exit('whole: %s: %s' % (command.name, words))


def read(path):
    with open(path, 'rb') as file:
        return file.read()


def write(path, bytes_):
    if bytes_ is not None:
        with open(path, 'wb') as file:
            file.write(bytes_)
    elif os.path.exists(path):
        os.remove(path)


def beside(path):
    """The name of the file beside."""
    name = path.encode()
    if len(name) <= PLAIN_MOST:
        return path + BESIDE
    total = 0xcbf29ce484222325
    for byte in name:
        total = (total ^ byte) * 0x100000001b3 % 2**64
    return '%016x%s' % (total, BESIDE)


def left_beside():
    return [name for name in os.listdir('.') if name.endswith(BESIDE)]


def run(words, program=PROGRAM, **more):
    """Status and what is said on standard error."""
    more.setdefault('stdout', subprocess.DEVNULL)
    done = subprocess.run([program] + words, stdin=subprocess.DEVNULL, stderr=subprocess.PIPE, universal_newlines=True, **more)
    return done.returncode, done.stderr


# ---- what files that belong together say

def printed(state):
    """The pair of a compile prints as the old plan or as the new one, or is refused."""
    status, said = run('print kept.image --names kept.names -o told.plan'.split())
    if state == 1:
        return status == 5 and 'not compiled together' in said
    return status == 0 and ('leaf' if state == 2 else 'page') in read('told.plan').decode()


def first_printed(state):
    """The same where there was no old pair."""
    status = run('print kept.image --names kept.names -o told.plan'.split())[0]
    return status == (0 if state == 2 else 10)


def goes_on(state):
    """The new trace leads from the old run to the new one; beside the new run it is refused. An old trace has nothing to do with either."""
    status, said = run('replay kept.run kept.trace --save told.run'.split())
    if state == 1:
        return status == 0 and read('told.run') == read('new.run')
    return status == 7 and 'did not begin there' in said


def from_start(state):
    """A new trace leads from the plan to the new run, whatever run is there."""
    return state == 0 or (run('replay wide.plan kept.trace --save told.run'.split())[0] == 0 and read('told.run') == read('wide.run'))


def alone(_):
    return True


def commands():
    """Every command that writes files, with all of them."""
    return [
        Command('compile', 'compile new.plan -o kept.image --names kept.names', 0, ['kept.names', 'kept.image'], ['old.names', 'old.image'], printed),
        Command('compile over a list made by hand', 'compile new.plan -o kept.image --names kept.names', 0, ['kept.names', 'kept.image'], ['hand.names', 'old.image'], printed),
        Command('compile for the first time', 'compile new.plan -o kept.image --names kept.names', 0, ['kept.names', 'kept.image'], [None, None], first_printed),
        Command('compile without names', 'compile new.plan -o kept.image', 0, ['kept.image'], ['old.image'], alone),
        Command('compile to the longest names', 'compile new.plan -o %s --names %s' % tuple(LONGEST), 0, LONGEST[::-1], ['old.names', 'old.image'], alone),
        Command('print', 'print new.image --names new.names -o kept.plan', 0, ['kept.plan'], ['old.plan'], alone),
        Command('run', 'run wide.plan --save kept.run --trace kept.trace', 2, ['kept.trace', 'kept.run'], ['old.trace', 'old.run'], from_start),
        Command('resume', 'resume old.run --supply Key=one --save kept.run --trace kept.trace', 0, ['kept.trace', 'kept.run'], ['old.trace', 'wide.run'], alone),
        Command('resume in place', 'resume kept.run --supply Key=one --save kept.run --trace kept.trace', 0, ['kept.trace', 'kept.run'], ['old.trace', 'old.run'], goes_on),
        Command('replay', 'replay wide.plan wide.trace --save kept.run', 0, ['kept.run'], ['old.run'], alone),
    ]


def prepare():
    """The files that the commands read, and the old ones; what a command would make for comparison."""
    write('old.plan', OLD.encode())
    write('new.plan', NEW.encode())
    shutil.copy(os.path.join(ROOT, 'tests/tool/plans/c6.plan'), 'c6.plan')
    shutil.copy(os.path.join(ROOT, 'bench/plans/wide.plan'), 'wide.plan')
    for words in ('compile old.plan -o old.image --names old.names', 'compile new.plan -o new.image --names new.names', 'run c6.plan --save old.run --trace old.trace',
                  'run wide.plan --save wide.run --trace wide.trace', 'resume old.run --supply Key=one --save new.run'):
        run(words.split())
    write('hand.names', b''.join(read('old.names').splitlines(True)[:-1]))
    if len(read('old.image')) != len(read('new.image')) or read('old.names').count(b'\n') != read('new.names').count(b'\n'):
        sys.exit('whole: the two plans could be told apart by a count')


# ---- stopped at each call

def at_call(command, moment, fate, **more):
    command.reset()
    return run(command.words, MOMENTS, env=dict(os.environ, MOMENT=str(moment), FATE=fate, **more))


def taken(command):
    """What the files are now is what they say; how many are new."""
    state = command.state()
    if not command.fits(state):
        wrong(command, 'the files that it leaves, %d of them new, are taken for what they are not' % state)
    return state


def killed(command):
    """At each call; then once more, to the end. How many moments there are, and how often some files were new and others not."""
    between = 0
    for moment in range(1, CALLS_MOST):
        if at_call(command, moment, 'kill')[0] != -signal.SIGKILL:
            return moment - 1, between
        between += 0 < taken(command) < len(command.files)
        for path, bytes_ in zip(command.files, command.old):
            write(path, bytes_)
        if run(command.words)[0] != command.status or command.state() != len(command.files) or left_beside():
            wrong(command, 'killed at call %d, it does not end well when it is started again' % moment)
    wrong(command, 'never comes to an end')


def words_of_failure(command, over):
    """What is said where the call fails that is so many behind the first rename, or before it: a file that is in its place already is not called unwritten."""
    at, synced = over // CALLS_IN_PLACE - 1, over > 0 and over % CALLS_IN_PLACE == 0
    if not synced:
        return ['rissobarm: %s: not written: No space left on device\n' % path for path in command.files]
    rest = ''.join('; not written: ' + path for path in command.files[at + 1:])
    return ['rissobarm: %s: in its place, but a power cut may undo that: No space left on device%s\n' % (command.files[at], rest)]


def failed(command):
    """A call that fails is told, and nothing is left beside; behind a rename a file is new, and none is renamed before that is sure on the disk."""
    before = CALLS_BEFORE * len(command.files)
    told = before + CALLS_IN_PLACE * len(command.files)
    for moment in range(1, told + 2):
        status, said = at_call(command, moment, 'fail')
        state, last, over = taken(command), moment > told, max(0, moment - before)
        if left_beside():
            wrong(command, 'failing at call %d, it leaves a file beside' % moment)
        if last and (status != command.status or said or state != len(command.files)):
            wrong(command, 'has more calls than it should')
        if not last and (status != 10 or said not in words_of_failure(command, over) or state != over // CALLS_IN_PLACE):
            wrong(command, 'failing at call %d, it ends with %d and says: %s' % (moment, status, said))
    return told


def synced(command):
    """Behind each rename the folder is synced, before the next one; a disk that does not sync folders is none that fails."""
    calls = at_call(command, 0, 'tell')[1].splitlines()
    if [call for call in calls if call in ('rename', 'fsync folder', 'sync')] != ['rename', 'fsync folder'] * len(command.files):
        wrong(command, 'does not sync the folder behind each rename: %s' % ', '.join(calls))
    for why in (errno.EINVAL, errno.ENOTSUP):
        done = at_call(command, CALLS_BEFORE * len(command.files) + CALLS_IN_PLACE, 'fail', WHY=str(why))
        if done != (command.status, '') or command.state() != len(command.files):
            wrong(command, 'on a disk that does not sync folders it ends with %d and says: %s' % done)


def stopped(command, moments):
    """Told to stop while it writes, it puts all files in their places first."""
    for moment in range(1, moments + 1, 2):
        status, said = at_call(command, moment, 'stop')
        if status not in (command.status, -signal.SIGTERM) or said or taken(command) != len(command.files) or left_beside():
            wrong(command, 'stopped at call %d, it ends with %d and leaves something undone: %s' % (moment, status, said))


def by_chance(command):
    """Killed at moments by chance."""
    command.reset()
    began = time.time()
    run(command.words)
    took, states = time.time() - began, set()
    for _ in range(KILLS):
        command.reset()
        job = subprocess.Popen([PROGRAM] + command.words, stdout=subprocess.DEVNULL, stderr=subprocess.DEVNULL)
        time.sleep(random.uniform(0, took))
        job.kill()
        job.wait()
        states.add(taken(command))
    return states


# ---- no room

def refused(command, status, said, path, why):
    """That path is told, and all files are the old ones."""
    if status != 10 or said != 'rissobarm: %s: not written: %s\n' % (path, why):
        wrong(command, 'where there is no room it ends with %d and says: %s' % (status, said))
    if command.stand() != command.old or left_beside():
        wrong(command, 'where there is no room it does not leave the old files alone')


def limited(command):
    """Past a limit on the size of a file, up to the largest."""
    sizes = [len(bytes_) for bytes_ in command.new]
    for limit in sorted({0, 1, min(sizes) - 1, max(sizes) - 1}):
        command.reset()
        status, said = run(command.words, preexec_fn=lambda: resource.setrlimit(resource.RLIMIT_FSIZE, (limit, limit)))
        first = next(path for path, size in zip(command.files, sizes) if size > limit)
        refused(command, status, said, first, 'File too large')


def on_full_device(command):
    """Each file in turn on a device without room: the others are left alone."""
    for path in command.files:
        command.reset()
        words, last = list(command.words), len(command.words) - 1 - command.words[::-1].index(path)
        words[last] = '/dev/full'
        status, said = run(words)
        refused(command, status, said, '/dev/full', 'No space left on device')


def fill(free):
    """Fills the disk but for so many pages."""
    with open('filler', 'wb', buffering=0) as filler:
        try:
            while True:
                filler.write(bytes(PAGE))
        except OSError:
            filler.truncate(max(0, os.stat('filler').st_size // PAGE - free) * PAGE)


def on_small_disk(folder):
    """Every command on a disk that is full but for a few pages: the old files, or the new ones."""
    full = 0
    os.chdir(folder)
    prepare()
    for command in commands():
        for free in range(8):
            command.reset()
            fill(free)
            status, said = run(command.words)
            os.remove('filler')
            if status == command.status and command.state() == len(command.files):
                break
            full += 1
            refused(command, status, said, said.split(': ')[1] if ': ' in said else '', 'No space left on device')
        else:
            wrong(command, 'finds no room on a disk with %d pages free' % free)
    print(full)


def small_disk():
    """How often the disk was full; None where none can be mounted."""
    with tempfile.TemporaryDirectory() as folder:
        mount = 'mount -t tmpfs -o size=256k none "$0" && exec "$@"'
        inside = ['sh', '-c', mount, folder, sys.executable, __file__, PROGRAM, MOMENTS, '--disk', folder]
        for space in (['unshare', '-m'], ['unshare', '-rm']):
            if shutil.which('unshare') and subprocess.run(space + ['sh', '-c', 'mount -t tmpfs none "$0"', folder], stderr=subprocess.DEVNULL).returncode == 0:
                done = subprocess.run(space + inside, stdout=subprocess.PIPE, universal_newlines=True)
                if done.returncode != 0:
                    sys.exit(done.returncode)
                return int(done.stdout)
    return None


def spoken():
    """What is only said, on a device without room and past a limit: each command tells that, too."""
    for words in ('check c6.plan', 'print c6.plan', 'compile c6.plan -o -', 'run c6.plan', 'resume old.run', 'replay c6.plan old.trace', 'show wide.plan', 'why 4 c6.plan', 'help', '--version'):
        with open('/dev/full', 'wb') as full:
            if run(words.split(), stdout=full) != (10, 'rissobarm: standard output: No space left on device\n'):
                sys.exit('whole: %s does not tell that its output has no room' % words)
        with open('told', 'wb') as told:
            done = run(words.split(), stdout=told, preexec_fn=lambda: resource.setrlimit(resource.RLIMIT_FSIZE, (0, 0)))
        if done != (10, 'rissobarm: standard output: File too large\n'):
            sys.exit('whole: %s does not tell that its output is past a limit' % words)


def left_over(command):
    """What a tool that was killed has left, longer than the file that comes: nothing of it is in the new one."""
    command.reset()
    for path in command.files:
        write(beside(path), bytes(10 * PAGE))
    if run(command.words)[0] != command.status or command.state() != len(command.files) or left_beside():
        wrong(command, 'does not use what was left beside as it should')


def one_waits():
    """A tool that writes a file waits for another that does, wherever that one is: both end well, and the later one has the file."""
    for moment, path in itertools.product(range(3, 7), ('both.image', LONGEST[0])):
        first = subprocess.Popen([MOMENTS, 'compile', 'old.plan', '-o', path], env=dict(os.environ, MOMENT=str(moment), FATE='pause'))
        began = time.time()
        while not left_beside() and first.poll() is None and time.time() - began < PATIENCE:
            time.sleep(0.002)
        if run(['compile', 'new.plan', '-o', path]) != (0, '') or first.wait() != 0 or read(path) != read('new.image') or left_beside():
            sys.exit('whole: of two tools that write one file, one does not wait for the other at call %d' % moment)
        os.remove(path)


def waits_for_lock(job):
    """Until a program waits for a lock; a system that does not tell leaves only to be patient."""
    began = time.time()
    while time.time() - began < PATIENCE // 4 and job.poll() is None:
        with open('/proc/locks') as locks:
            if any('->' in line and line.split()[5] == str(job.pid) for line in locks):
                return
        time.sleep(0.005)


def waiting(command, number, ignored):
    """Starts a tool, sends it a stop while it waits for another one's file, and lets that one go when the tool has ended, or, where the stop is ignored, before. Status and what is said."""
    def begin():
        for stop in STOPS:
            signal.signal(stop, signal.SIG_IGN if ignored else signal.SIG_DFL)

    command.reset()
    with open(beside(command.files[-1]), 'wb') as held:
        fcntl.lockf(held, fcntl.LOCK_EX)
        job = subprocess.Popen([PROGRAM] + command.words, stdin=subprocess.DEVNULL, stdout=subprocess.DEVNULL, stderr=subprocess.PIPE, universal_newlines=True, preexec_fn=begin)
        waits_for_lock(job)
        job.send_signal(number)
        if not ignored:
            job.wait(PATIENCE)
    said = job.communicate(timeout=PATIENCE)[1]
    return job.returncode, said


def stopped_waiting():
    """A tool that waits for another is ended by each of three signals, unless it is ignored: all files are the old ones, and beside is what the other tool has, alone."""
    for command in commands():
        last = command.files[-1]
        for number in STOPS:
            status, said = waiting(command, number, False)
            if status != 10 or said != 'rissobarm: %s: not written: stopped while another tool writes it\n' % last:
                wrong(command, 'stopped by %s while it waits, it ends with %d and says: %s' % (number.name, status, said))
            if command.stand() != command.old or left_beside() != [beside(last)]:
                wrong(command, 'stopped by %s while it waits, it does not leave all files alone' % number.name)
            if waiting(command, number, True) != (command.status, '') or command.state() != len(command.files) or left_beside():
                wrong(command, 'it does not wait on where %s is ignored' % number.name)
    command.reset()


def crossed():
    """Of two tools that each hold what the other wants one gives up, and the files are those of the other; where the second comes too late for that, both end well."""
    first = subprocess.Popen([MOMENTS] + 'compile old.plan -o two.b --names two.a'.split(), env=dict(os.environ, MOMENT='3', FATE='pause'), stderr=subprocess.PIPE, universal_newlines=True)
    began = time.time()
    while not left_beside() and first.poll() is None and time.time() - began < PATIENCE:
        time.sleep(0.002)
    ends = [run('compile new.plan -o two.a --names two.b'.split()), (first.communicate()[1], first.returncode)[::-1]]
    given_up = (10, 'rissobarm: two.%s: not written: Resource deadlock avoided\n')
    if not all(end in ((0, ''), (given_up[0], given_up[1] % name)) for end, name in zip(ends, 'ab')) or (0, '') not in ends or left_beside():
        sys.exit('whole: of two tools whose files are crossed, not one gives up and one ends well: %s' % ends)
    if (read('two.a'), read('two.b')) not in ((read('old.names'), read('old.image')), (read('new.image'), read('new.names'))):
        sys.exit('whole: of two tools whose files are crossed, each has one file')


def shut():
    """A file that its owner may not write to stays so, and what a kill leaves beside it can be written to by the next tool."""
    for moment in range(1, CALLS_MOST):
        shutil.copy('old.image', 'shut.image')
        os.chmod('shut.image', 0o444)
        status = run('compile new.plan -o shut.image'.split(), MOMENTS, env=dict(os.environ, MOMENT=str(moment), FATE='kill'))[0]
        if any(not os.stat(path).st_mode & 0o200 for path in left_beside()):
            sys.exit('whole: killed at call %d, it leaves a file beside that cannot be written to' % moment)
        mode = os.stat('shut.image').st_mode & 0o777
        os.remove('shut.image')
        if status == 0 and mode == 0o444 and not left_beside():
            return
    sys.exit('whole: a file that may not be written to does not stay so')


def as_other_user():
    """For a child of root: from here on it is another user, for whom the modes of files count."""
    if os.geteuid() == 0:
        os.setuid(OTHER_USER)


def unreadable():
    """A folder that may be written to but not read cannot be opened to be synced: every disk is, instead."""
    os.mkdir('dark')
    if os.geteuid() == 0:
        os.chown('dark', OTHER_USER, OTHER_USER)
    os.chmod('dark', 0o300)
    status, said = run('compile old.plan -o dark/x --names dark/y'.split(), './moments', env=dict(os.environ, FATE='tell'), preexec_fn=as_other_user)
    calls = [call for call in said.splitlines() if 'sync' in call or call == 'rename']
    os.chmod('dark', 0o700)
    if status != 0 or calls != ['fsync', 'fsync'] + ['rename', 'sync'] * 2 or read('dark/x') != read('old.image'):
        sys.exit('whole: in a folder that may not be read it ends with %d and calls: %s' % (status, said))


def in_the_way():
    """What comes to stand beside when the tool has looked already, before it makes the file or opens the one that was left: told, not written to and not taken away."""
    kinds = {'ln -s mine %s': 'is no plain file', 'mkfifo %s': 'is no plain file', 'mkdir %s': 'is no plain file', 'ln mine %s': 'has a second name'}
    if os.geteuid() == 0:
        kinds['echo theirs >%%s; chmod 666 %%s; chown %d %%s' % STRANGER] = 'belongs to another user'
    write('mine', b'mine\n')
    shutil.copy('old.image', 'kept.image')
    name = 'kept.image' + BESIDE
    for (kind, fault), left in itertools.product(kinds.items(), (False, True)):
        if left:
            write(name, b'half')
        plant = 'rm -f %s; %s' % (name, kind.replace('%s', name))
        status, said = run('compile new.plan -o kept.image'.split(), MOMENTS, env=dict(os.environ, MOMENT='3' if left else '2', FATE='meanwhile', MEANWHILE=plant))
        words = [name + ' beside it ' + fault] + ['Too many levels of symbolic links', 'Is a directory'] * left
        if status != 10 or said not in ['rissobarm: kept.image: not written: %s\n' % why for why in words] or left_beside() != [name]:
            sys.exit('whole: in the way by `%s`, it ends with %d and says: %s' % (kind, status, said))
        if read('mine') != b'mine\n' or read('kept.image') != read('old.image') or (os.path.isfile(name) and read(name) not in (b'mine\n', b'theirs\n')):
            sys.exit('whole: in the way by `%s`, something is written over' % kind)
        subprocess.run(['rm', '-r', name])


def shared():
    """A folder that all may write to: what others have left beside is told at once, locked or not, and left alone; so is a file in the place that only they may replace. How many ways."""
    if os.geteuid() != 0:
        return 0
    os.mkdir('shared')
    os.chmod('shared', 0o1777)
    ways = [(OTHER_USER, 0), (OTHER_USER, STRANGER), (0, OTHER_USER)]
    for user, owner in ways:
        for path, words in ((beside('shared/x'), 'x.rissobarm-new beside it belongs to another user'), ('shared/x', 'Operation not permitted')):
            write(path, b'theirs')
            os.chmod(path, 0o666)
            os.chown(path, owner, owner)
            with open(path, 'rb+') as held:
                fcntl.lockf(held, fcntl.LOCK_EX)
                done = run('run old.plan --arrivals shared/none --save shared/x'.split(), './tool', preexec_fn=lambda: os.setuid(user), timeout=PATIENCE)
            wanted = (10, 'rissobarm: shared/x: not written: %s\n' % words)
            if user == 0 and path == 'shared/x':
                wanted = (10, 'rissobarm: shared/none: No such file or directory\n')
            if done != wanted or read(path) != b'theirs' or os.stat(path).st_uid != owner or len(os.listdir('shared')) != 1:
                sys.exit('whole: for user %d, where user %d has %s, it ends with %d and says: %s' % (user, owner, path, *done))
            os.remove(path)
    return len(ways)


def at_once():
    """Several tools that write one file: each ends well, and the file is one of theirs."""
    texts = {}
    for k in range(6):
        plan = 'many%d.plan' % k
        write(plan, b'mode p.\n' + b'p <- p.\n' * k + b'<- p.\n')
        run(['compile', plan, '-o', 'many.image'])
        texts[read('many.image')] = k
    jobs = [subprocess.Popen([PROGRAM, 'compile', 'many%d.plan' % (k % 6), '-o', 'many.image'], stderr=subprocess.PIPE) for k in range(24)]
    if any(job.communicate()[1] or job.returncode for job in jobs) or read('many.image') not in texts or left_beside():
        sys.exit('whole: of tools that write one file at once, one fails or spoils it')


def main():
    if sys.argv[3:4] == ['--disk']:
        on_small_disk(sys.argv[4])
        return
    random.seed(int(sys.argv[3]) if len(sys.argv) > 3 else 1)
    with tempfile.TemporaryDirectory(dir='/dev/shm' if os.access('/dev/shm', os.W_OK) else None) as folder:
        os.chdir(folder)
        prepare()
        moments = between = told = count = 0
        for command in commands():
            made, some = killed(command)
            moments, between, told, count = moments + made, between + some, told + failed(command), count + 1
            synced(command)
            stopped(command, made)
            left_over(command)
            by_chance(command)
            limited(command)
            on_full_device(command)
        spoken()
        one_waits()
        stopped_waiting()
        crossed()
        shut()
        at_once()
        # for another user, who may not come to where they were built
        shutil.copy(PROGRAM, 'tool')
        shutil.copy(MOMENTS, 'moments')
        os.chmod('.', 0o755)
        unreadable()
        in_the_way()
        ways = shared()
        os.chdir('/')
    full = small_disk()
    print('whole: %d commands killed at each of %d calls, %d of them between two files, and %d times by chance; %d failing calls, limits and full devices told; %s; %s' % (
        count, moments, between, count * KILLS, told, 'no small disk here' if full is None else 'full %d times on a small disk' % full,
        'files of other users left alone in %d ways' % ways if ways else 'no other user here'))


main()
