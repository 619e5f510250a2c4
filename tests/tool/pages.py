#!/usr/bin/env python3
"""pages.py PROGRAM PAGE [--write]: holds a page to the tool. Blocks ```prolog NAME are files, blocks ```console are commands behind `$ ` and what they print,
all in one folder, where `rissobarm` is the program, or, with - for the program, what the path has. A status other than 0 is a line `status N`. --write puts in what is
printed now."""
import os
import re
import subprocess
import sys
import tempfile

BLOCK = re.compile(r'(?ms)^```(prolog|console)(?: (\S+))?\n(.*?)^```$')


def played(program, folder, block):
    """The block with what its commands print now."""
    lines = []
    for command in re.findall(r'(?m)^\$ (.*)$', block):
        words = command if program is None else 'rissobarm() { "%s" "$@"; }\n%s' % (program, command)
        done = subprocess.run(['bash', '-c', words], cwd=folder, stdin=subprocess.DEVNULL, stdout=subprocess.PIPE, stderr=subprocess.STDOUT)
        lines += ['$ ' + command] + done.stdout.decode().splitlines()
        if done.returncode != 0:
            lines.append('status %d' % done.returncode)
    return ''.join(line + '\n' for line in lines)


def page_now(program, text, folder):
    """The page with every block of commands played, and how many commands those are."""
    count = 0

    def block(found):
        nonlocal count
        sort, name, inside = found.groups()
        if sort == 'prolog':
            with open(os.path.join(folder, name), 'w') as file:
                file.write(inside)
            return found.group(0)
        count += len(re.findall(r'(?m)^\$ ', inside))
        return '```console\n%s```' % played(program, folder, inside)

    return BLOCK.sub(block, text), count


def main():
    program, path = None if sys.argv[1] == '-' else os.path.abspath(sys.argv[1]), sys.argv[2]
    with open(path) as page:
        text = page.read()
    with tempfile.TemporaryDirectory() as folder:
        now, count = page_now(program, text, folder)
    if sys.argv[3:] == ['--write']:
        with open(path, 'w') as page:
            page.write(now)
    elif now != text:
        pairs = [(a, b) for a, b in zip(text.splitlines(), now.splitlines()) if a != b]
        sys.exit('%s: the page has `%s`, the tool `%s`' % (path, *(pairs[0] if pairs else ('fewer lines', 'more'))))
    print('%s: %d commands, as the page has them' % (path, count))


main()
