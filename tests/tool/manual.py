#!/usr/bin/env python3
"""manual.py PROGRAM: the manual has every command, option and status that the tool tells, every call of the header, every refusal of docs/REFERENCE.md and the version; the completion has
every command and option; and mandoc, and groff where it is installed, find nothing wrong with the pages."""
import os
import re
import shutil
import subprocess
import sys

ROOT = os.path.dirname(os.path.dirname(os.path.dirname(os.path.abspath(__file__))))
PAGES = [os.path.join(ROOT, 'man', name) for name in ('rissobarm.1', 'rissobarm.3')]


def read(*names):
    with open(os.path.join(ROOT, *names)) as file:
        return file.read()


def plain(page):
    """A page without its marks."""
    return re.sub(r'\\f.', '', re.sub(r'(?m)^\.(?:TP.*|B|I|BR|BI|RB|RI|IR) ?', '', page)).replace('\\-', '-')


def missing(words, text):
    return [word for word in words if word not in text]


def lint():
    """What mandoc says, and groff where it is installed."""
    if shutil.which('mandoc') is None:
        sys.exit('manual: there is no mandoc to look at the pages; tools/install tests brings it')
    tools = [['groff', '-man', '-Tutf8', '-ww', '-z'], ['mandoc', '-Tlint', '-Wwarning']]
    used = [tool for tool in tools if shutil.which(tool[0])]
    for tool in used:
        for page in PAGES:
            done = subprocess.run(tool + [page], stdout=subprocess.PIPE, stderr=subprocess.STDOUT, universal_newlines=True)
            if done.returncode != 0 or done.stdout:
                sys.exit('manual: %s' % done.stdout)
    return [tool[0] for tool in used]


def main():
    told = subprocess.run([sys.argv[1], 'help'], stdout=subprocess.PIPE, universal_newlines=True).stdout
    commands = re.findall(r'(?m)^  rissobarm ([a-z]+) ', told)
    options = sorted(set(re.findall(r'"(--?[a-z]+)"', read('tool', 'options.c'))))
    statuses = re.findall(r'(?m)^ +(\d+)  (.*)$', told)
    calls = re.findall(r'(?m)^uint64_t (rissobarm_[a-z_]+)\(', read('include', 'rissobarm.h'))
    first, third, completion = plain(read('man', 'rissobarm.1')), plain(read('man', 'rissobarm.3')), read('tool', 'completion', 'rissobarm.bash')
    refusals = ['%s %s' % row for row in re.findall(r'(?m)^\| (\d+) \| ([A-Z]+) \|', read('docs', 'REFERENCE.md'))]
    version = '"rissobarm %s"' % re.search(r'(?m)^#define RISSOBARM_VERSION "(.*)"$', read('include', 'rissobarm.h')).group(1)
    ends = ['%s\n%s.' % (number, words[0].upper() + words[1:]) for number, words in statuses]
    lacks = (missing(['rissobarm ' + command for command in commands] + options + ends + [version], first)
             + missing(calls + refusals + [version], third) + missing(commands + options, completion))
    if lacks or len(commands) < 8 or len(statuses) < 12 or len(refusals) < 17:
        sys.exit('manual: missing: %s' % ', '.join(lacks))
    print('manual: %d commands, %d options, %d statuses, %d calls, %d refusals; %s' % (
        len(commands), len(options), len(statuses), len(calls), len(refusals), ' and '.join(lint())))


main()
