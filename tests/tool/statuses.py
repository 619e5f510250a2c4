#!/usr/bin/env python3
"""statuses.py FILE: the manual tells which statuses each command can end with; in FILE, lines of a command and its status, each of them occurs, and no other."""
import os
import re
import sys

ROOT = os.path.dirname(os.path.dirname(os.path.dirname(os.path.abspath(__file__))))


def told():
    """The statuses of each command by the manual."""
    with open(os.path.join(ROOT, 'man', 'rissobarm.1')) as page:
        section = page.read().split('.SH EXIT STATUS')[1].split('.SH ')[0]
    return {(command, int(status)) for commands, statuses in re.findall(r'(?m)^\.BR? ([a-z ,"]+)\n((?:\d+, )+\d+)\.$', section)
            for command in re.findall('[a-z]+', commands) for status in statuses.split(', ')}


def main():
    commands = {command for command, _ in told()}
    with open(sys.argv[1]) as file:
        seen = {(command, int(status)) for command, status in map(str.split, file) if command in commands}
    if len(commands) != 8 or seen != told():
        sys.exit('statuses: by the manual, but never seen: %s; seen, but not in the manual: %s' % (sorted(told() - seen), sorted(seen - told())))
    print('statuses: %d commands, %d statuses of theirs, each seen' % (len(commands), len(seen)))


main()
