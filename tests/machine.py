#!/usr/bin/env python3
"""Holds docs/MACHINE.md to the definitions, and to the number of sentences of document 01. It reads nothing outside the repository.

Each numbered sentence names the definitions of the crates that define the machine (DEFINING) that cite it in their comments, all of them and
no others; every number that a comment of any crate cites is there; each section has as many sentences as the document (COUNTS), the table rules being one of those and
what was ordered later (LATER) none.
`--write` writes the names into the page."""
import glob
import os
import re
import sys
import textwrap

ROOT = os.path.dirname(os.path.dirname(os.path.abspath(__file__)))
PAGE = os.path.join(ROOT, 'docs', 'MACHINE.md')
COUNTS = {'Image': 11, 'Refusals': 23, 'Tables': 5, 'Tags': 41, 'Turns': 12}  # sentences of document 01, section by section
SENTENCE = re.compile(r'(?ms)^- \*\*(\w+) (\d+[a-z]?)\*\* (.*?\.)((?:\s+`[^`]+`,?)*)\s*?(?=\n\n|\n- |\Z)')
LATER = {('Tags', '42')}  # sentences of these sections that were ordered after the document
DEFINING = ['parlog', 'values', 'unify', 'bound_row', 'bound', 'saved', 'resume', 'spell', 'text_names', 'text_program', 'words', 'text_words', 'trace', 'replay', 'traced', 'run_traced']
KEYWORDS = ['pub', 'abbrev', 'unfoldable']
WIDTH = 160


class Page:
    """The numbered sentences, in order: section -> number -> (text, names)."""

    def __init__(self, text):
        self.text = text
        self.sections = {}
        for section, number, words, names in SENTENCE.findall(text):
            self.sections.setdefault(section, {})[number] = (words, re.findall(r'`([^`]+)`', names))
        keys = '|'.join(self.sections)
        self.citation = re.compile(r'\b(%s) (\d+[a-z]?(?:(?:, | to )\d+[a-z]?)*)' % keys)

    def between(self, section, first, last):
        """The numbers after first up to last, as the page has them."""
        numbers = list(self.sections[section])
        if first in numbers and last in numbers:
            return numbers[numbers.index(first) + 1:numbers.index(last) + 1]
        return [last]

    def cited(self, comment):
        """The sentences that a comment cites: numbers with commas between them, or from one to another."""
        found = []
        for section, numbers in self.citation.findall(comment):
            before = None
            for joint, number in re.findall(r'(, | to |^)(\d+[a-z]?)', numbers):
                more = self.between(section, before, number) if joint == ' to ' else [number]
                found += [(section, one) for one in more]
                before = number
        return found


def name_of(line):
    """The names that a line of definitions declares: a definition, a type, or constructors."""
    head = re.match(r'(?:(?:unfoldable|abbrev) )*pub (?:(?:data|record|enum|struct) )?([^\s:({]+)', line)
    if head:
        return [head.group(1)]
    cases = re.match(r'  ([a-z][^\s:]*(?: [a-z][^\s:]*)*) : ', line)
    return [name for name in cases.group(1).split() if name not in KEYWORDS] if cases else []


def comments(path):
    """Each block of comment lines with its place and the names declared right behind it; attributes may stand between."""
    block, at = [], 0
    with open(path, encoding='utf-8') as lines:
        for number, line in enumerate(lines, 1):
            mark = re.match(r'\s*(?:--|//) ?(.*)', line)
            if mark:
                at = at if block else number
                block.append(mark.group(1))
            elif block and not line.startswith('#['):
                yield f'{os.path.relpath(path, ROOT)}:{at}', ' '.join(block), name_of(line)
                block = []


def files(pattern):
    """The files of all crates that a pattern names."""
    return sorted(glob.glob(os.path.join(ROOT, 'crates', pattern), recursive=True))


def definitions():
    """The files whose definitions the page names, in the order of the definitions."""
    found = []
    for crate in DEFINING:
        specs = os.path.join(ROOT, 'crates', crate, 'specs')
        with open(os.path.join(specs, 'Lib.antt'), encoding='utf-8') as lines:
            modules = re.findall(r'(?m)^pub mod (\w+)', lines.read())
        found += [os.path.join(ROOT, 'crates', crate, 'src', 'lib.rt')] + [os.path.join(specs, name + '.antt') for name in modules]
    return found


def citers(page):
    """Sentence -> the definitions that cite it, with their places."""
    found = {}
    for path in definitions():
        for place, words, names in comments(path):
            for sentence in dict.fromkeys(page.cited(words)):
                found.setdefault(sentence, []).extend((name, place) for name in names)
    return found


def unknown(page):
    """The citations of any crate that lead nowhere."""
    for path in files('*/specs/*.antt') + files('*/proofs/**/*.antt') + files('*/src/*.rt'):
        for place, words, _ in comments(path):
            for section, number in page.cited(words):
                if number not in page.sections[section]:
                    yield f'{place} cites {section} {number}, which is not there'


def unheld(page):
    """The sentences that name no definition, or others than those that cite them."""
    found = citers(page)
    for section, numbers in page.sections.items():
        for number, (words, names) in numbers.items():
            key = f'{section} {number}'
            cited = dict(found.get((section, number), []))
            if not names:
                yield f'{key} names no definition'
            if re.search(r'\.\s', words):
                yield f'{key} is more than one sentence'
            yield from (f'{key} names {name}, which does not cite it' for name in names if name not in cited)
            yield from (f'{key} does not name {name}, which cites it ({place})' for name, place in cited.items() if name not in names)


def after(number):
    """The numbers that may follow one: 4 or 3a behind 3, 4 or 3b behind 3a."""
    digits, letter = re.match(r'(\d+)(.?)', number).groups()
    return str(int(digits) + 1), digits + (chr(ord(letter) + 1) if letter else 'a')


def misnumbered(page):
    """The sentences that stand out of order, or are not read."""
    for section, numbers in page.sections.items():
        yield from (f'{section} {number} stands behind {before}' for before, number in zip(['0', *numbers], numbers) if number not in after(before))
    if page.text.count('- **') != sum(len(numbers) for numbers in page.sections.values()):
        yield 'some sentence of the page is not read, or a number is there twice'


def uncounted(page):
    """The sections that have more or fewer sentences than the document's."""
    for section, count in COUNTS.items():
        here = sum(number.isdigit() and (section, number) not in LATER for number in page.sections[section])
        if here != count:
            yield f'{section}: the document has {count} sentences, the page {here}'


def write(page):
    """Puts the names into the page that the comments have."""
    found = citers(page)

    def named(match):
        section, number, words, _ = match.groups()
        names = dict.fromkeys(f'`{name}`' for name, _ in found.get((section, number), []))
        line = ' '.join([f'- **{section} {number}**', *words.split(), ', '.join(names)]).rstrip()
        whole = re.sub('`[^`]*`', lambda code: code.group().replace(' ', '\0'), line)
        return textwrap.fill(whole, WIDTH, subsequent_indent='  ', break_long_words=False, break_on_hyphens=False).replace('\0', ' ')
    with open(PAGE, 'w', encoding='utf-8') as file:
        file.write(SENTENCE.sub(named, page.text))


def main():
    with open(PAGE, encoding='utf-8') as file:
        page = Page(file.read())
    if '--write' in sys.argv:
        write(page)
        return 0
    names = [*unheld(page)]
    faults = [*misnumbered(page), *names, *unknown(page), *uncounted(page)]
    count = sum(len(numbers) for numbers in page.sections.values())
    print('\n'.join(faults) if faults else f'{count} sentences, each held to its definitions and back')
    if names:
        print('tests/machine.py --write puts in the names that the comments have')
    return 1 if faults else 0


if __name__ == '__main__':
    sys.exit(main())
