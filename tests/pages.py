#!/usr/bin/env python3
"""pages.py: holds the pages to what there is, and to each other.

The list of where things are (docs/HACKING.md) is that of the repository: each path in it is there, and each folder and file of the top, of docs/, tests/ and tools/ is in it; its line of
progress counts the crates that the archive stands on. The floors of docs/ARCHITECTURE.md are the groups of crates.txt. Each link of a page leads to a file that is there, and to a heading of it.
Pages that are read are short: README.md and docs/PROMISES.md as a whole, the SHORT pages in their lines and cells; each of docs/ leads to the glossary at once. What stands on two pages is the
same on both: refusals, rules and limits on docs/REFERENCE.md and docs/MACHINE.md, what was measured beside other languages on README.md and bench/README.md."""
import glob
import os
import re
import sys

ROOT = os.path.dirname(os.path.dirname(os.path.abspath(__file__)))
OPENED = ['.ci', 'docs', 'tests', 'tools']  # folders whose own files and folders the list has, one by one
UNLISTED = {'README.md', 'build', 'crates', 'crates.txt'}  # the first page, what is built, and what is told in words
SHORT = ['README.md', *('docs/%s.md' % name for name in ('REFERENCE', 'PROMISES', 'BELIEVED', 'DECISIONS', 'MACHINE', 'ARCHITECTURE', 'GLOSSARY'))]
LINE, CELL = 200, 300  # letters of a line that is no row of a table, and of a cell
LINES = {'README.md': 130, 'docs/PROMISES.md': 160}
FIRST = 40  # lines of README.md in which its two commands stand
COMMANDS = ['make run', 'make test']
UNLINKED = {'docs/GLOSSARY.md', 'docs/PLANS.md', 'docs/INDEX.md', 'docs/PORT.md'}  # the glossary itself, pages that have their words beside what they show, and one whose first lines are fixed
DOCUMENTED = 14  # refusals that have a sentence of their own each


def read(*names):
    with open(os.path.join(ROOT, *names), encoding='utf-8') as file:
        return file.read()


def section(text, title):
    """A section by its title, up to the next one."""
    return text.split('\n## %s\n' % title)[1].split('\n## ')[0]


def cells(row):
    return [cell.strip() for cell in re.split(r'(?<!\\)\|', row.strip().strip('|'))]


def tables(text):
    """The tables of a text, each as a list of rows of cells, its title first."""
    return [[cells(row) for row in table.splitlines() if not row.startswith('|---')] for table in re.findall(r'(?m)(?:^\|.*\n)+', text + '\n')]


def short_pages():
    """The pages whose lines and cells are short: those named, and the further pages of promises."""
    return [path for path in SHORT + sorted(os.path.relpath(path, ROOT) for path in glob.glob(os.path.join(ROOT, 'docs', 'promises', '*.md'))) if os.path.exists(os.path.join(ROOT, path))]


# ---- what there is

def there():
    """What the list has to have: names at the top, and names inside the folders that are opened."""
    names = {name for name in os.listdir(ROOT) if name[0] != '.' and name not in UNLISTED and name not in OPENED}
    return names | {'%s/%s' % (folder, name) for folder in OPENED for name in os.listdir(os.path.join(ROOT, folder)) if name != '__pycache__'}


def listing(page):
    """What is wrong with the list."""
    listed = {path.rstrip('/') for table in tables(section(page, 'Where things are')) for row in table[1:] for path in re.findall(r'`([^`]+)`', row[0])}
    yield from ('docs/HACKING.md: the list has %s, which is not there' % path for path in sorted(listed) if not os.path.exists(os.path.join(ROOT, path)))
    yield from ('docs/HACKING.md: %s is not in the list' % path for path in sorted(there() - listed))


def floors(page):
    """What is wrong with the floors: they are the groups of crates.txt."""
    groups, told = re.findall(r'(?m)^# == (.*\S)', read('crates.txt')), [row[0] for row in tables(section(page, 'Floors'))[0][1:]]
    if told != groups:
        yield 'docs/ARCHITECTURE.md: the floors are %s, those of crates.txt %s' % (', '.join(told), ', '.join(groups))


def standing(name, on):
    """The crates that one stands on, and itself."""
    found, more = {name}, [name]
    while more:
        new = set(on[more.pop()]) - found
        found |= new
        more += new
    return found


def progress(page):
    """What is wrong with the line that tools/prove is said to print: how many crates there are for the archive."""
    on = {name: below.split() for name, below in re.findall(r'(?m)^(\w+)(?: staticlib)? *:(.*)$', read('crates.txt'))}
    told, count = int(re.search(r'`\[\d+/(\d+)\] ', page).group(1)), len(standing('capi_c', on))
    if told != count:
        yield 'docs/HACKING.md: the line of progress counts %d crates, the archive stands on %d' % (told, count)


# ---- links and lengths

def anchors(text):
    """The headings of a page as links name them."""
    return {re.sub(r'[^\w -]', '', heading.lower()).replace(' ', '-') for heading in re.findall(r'(?m)^#+ (.*)$', text)}


def links(path):
    """The links of a page that lead nowhere."""
    text = re.sub(r'(?ms)^```.*?^```$', '', read(path))
    for target in re.findall(r'\]\(([^)\s]+)\)', text):
        name, _, heading = target.partition('#')
        whole = os.path.normpath(os.path.join(os.path.dirname(path), name)) if name else path
        if re.match(r'[a-z]+:', target):
            continue
        if not os.path.exists(os.path.join(ROOT, whole)):
            yield '%s: there is no %s' % (path, target)
        elif heading and heading not in anchors(read(whole)):
            yield '%s: %s has no heading %s' % (path, whole, heading)


def lengths(path):
    """The lines and cells of a page that are too long, and a page that is."""
    lines = read(path).splitlines()
    if len(lines) > LINES.get(path, len(lines)):
        yield '%s: %d lines, where %d are the most' % (path, len(lines), LINES[path])
    for number, line in enumerate(lines, 1):
        if line.startswith('|'):
            yield from ('%s:%d: a cell of %d letters' % (path, number, len(cell)) for cell in cells(line) if len(cell) > CELL)
        elif len(line) > LINE:
            yield '%s:%d: a line of %d letters' % (path, number, len(line))


def glossary(path):
    """A page whose first line under its title does not lead to the glossary."""
    first = re.match(r'# .*\n\n(.+)\n', read(path))
    if path not in UNLINKED and not (first and 'GLOSSARY.md)' in first.group(1)):
        yield '%s: its first line does not lead to the glossary' % path


def commands(page):
    front = '\n'.join(page.splitlines()[:FIRST])
    yield from ('README.md: %s is not in its first %d lines' % (words, FIRST) for words in COMMANDS if words not in front)


# ---- what stands on two pages

def refusals(reference, machine):
    """The refusals of the one page that the other has under another number, or not at all."""
    for number, name in re.findall(r'(?m)^\| (\d+) \| ([A-Z]+) \|', section(reference, 'Refusals')):
        sentence = r'\*\*Refusals %s\*\* %s: ' % (number, name) if int(number) <= DOCUMENTED else r'\b%s\b[^.]*\b%s\b|\b%s\b[^.]*\b%s\b' % (number, name, name, number)
        if not re.search(sentence, machine):
            yield 'docs/MACHINE.md does not have refusal %s as %s' % (number, name)


def rules(reference, machine):
    """The rules of the one page that no sentence of the other has in brackets."""
    told = {number for bracket in re.findall(r'\(([a-z0-9, ]*\d)\)', section(machine, 'Tags')) for number in re.findall(r'\b\d+\b', bracket)}
    yield from ('docs/MACHINE.md has no rule %s' % number for number in re.findall(r'\| (\d+) \| [a-z]', section(reference, 'Rules')) if number not in told)


def limits(reference, machine):
    """The limits of images and runs that the sentences do not have."""
    for number, name in re.findall(r'\| ([\d,]+) \| `(RISSOBARM_[A-Z]+_LIMIT)`', section(reference, 'Limits')):
        if not re.search(r'(?<![\d,])%s(?![\d]|,\d)|\b%s\b' % (number, {'4': 'four'}.get(number, number)), machine):
            yield 'docs/MACHINE.md does not have %s, the limit %s' % (number, name)


def measured(page):
    """A table that is on the first page and on that of the bench."""
    block = re.compile(r'(?s)<!-- measured: peers -->.*?<!-- end -->')
    if block.findall(page) != block.findall(read('bench', 'README.md')):
        yield 'README.md: what was measured beside other languages is not as bench/README.md has it'


def main():
    pages = sorted(os.path.relpath(path, ROOT) for folder in ('*.md', 'docs/*.md', 'docs/*/*.md', 'bench/*.md', 'tests/*/*.md', 'tool/*.md', 'examples/*.md') for path in glob.glob(os.path.join(ROOT, folder)))
    readme, hacking, reference, machine = read('README.md'), read('docs', 'HACKING.md'), read('docs', 'REFERENCE.md'), read('docs', 'MACHINE.md')
    wrong = [*listing(hacking), *progress(hacking), *floors(read('docs', 'ARCHITECTURE.md')), *commands(readme)]
    wrong += [words for path in pages for words in links(path)] + [words for path in short_pages() for words in lengths(path)]
    wrong += [words for path in pages if path == 'README.md' or re.match(r'docs/(promises/)?[A-Za-z]+\.md', path) for words in glossary(path)]
    wrong += [*refusals(reference, machine), *rules(reference, machine), *limits(reference, machine), *measured(readme)]
    for words in wrong:
        print('pages: ' + words)
    print('pages: %d pages, their links, their lengths and what they share: %s' % (len(pages), '%d wrong' % len(wrong) if wrong else 'as it should be'))
    return 1 if wrong else 0


sys.exit(main())
