#!/usr/bin/env python3
"""manual.py PROGRAM..: manual and completion have every command, option and exit status that the help has."""
import os
import re
import subprocess
import sys

ROOT = os.path.dirname(os.path.dirname(os.path.dirname(os.path.abspath(__file__))))


def read(*names):
    with open(os.path.join(ROOT, *names), encoding='utf-8') as file:
        return file.read()


def main():
    told = subprocess.run([*sys.argv[1:], 'help'], capture_output=True, text=True, check=True).stdout
    manual, completion = read('index', 'man', 'rissobarm-index.1').replace('\\-', '-').replace('\\fB', '').replace('\\fP', ''), read('index', 'completion', 'rissobarm-index.bash')
    commands = re.findall(r'(?m)^  rissobarm-index (\w+)', told)
    options = sorted(set(re.findall(r'--[a-z]+', told)))
    statuses = re.findall(r'(?m)^ +(\d+)  ', told)
    wrong = ['the manual lacks %s' % name for name in commands if not re.search(r'(?m)^\.BR? %s\b|^\.BI %s\b' % (name, name), manual)]
    wrong += ['the completion lacks %s' % word for word in commands + options if word not in completion]
    wrong += ['the manual lacks %s' % word for word in options if word not in manual]
    wrong += ['the manual lacks the status %s' % number for number in statuses if '\n.B %s\n' % number not in manual]
    lint = subprocess.run(['mandoc', '-T', 'lint', '-W', 'warning', os.path.join(ROOT, 'index', 'man', 'rissobarm-index.1')], capture_output=True, text=True)
    wrong += lint.stdout.splitlines()
    if wrong:
        raise SystemExit('manual: ' + '; '.join(wrong))
    print('manual: %d commands, %d options and %d statuses, as the help has them' % (len(commands), len(options), len(statuses)))


main()
