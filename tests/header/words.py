#!/usr/bin/env python3
"""words.py PRINTED: holds the headers to the pages. What texts.c has printed: refusals, rules and ends are those of REFERENCE.md, tags and modes those of LAYOUT.md. And the limits and calls of
rissobarm.h are those of REFERENCE.md."""
import os
import re
import sys

ROOT = os.path.dirname(os.path.dirname(os.path.dirname(os.path.abspath(__file__))))


def page(*names):
    with open(os.path.join(ROOT, *names)) as text:
        return text.read()


def section(text, title):
    """A section by its title, up to the next one."""
    return text.split('\n## %s\n' % title)[1].split('\n## ')[0]


def counted(words):
    """`0 dormant, 1 ready` as pairs."""
    return [(int(number), name) for number, name in re.findall(r'(\d+) ([a-z-]+)', words)]


def expected():
    reference, layout = page('docs', 'REFERENCE.md'), page('docs', 'LAYOUT.md')
    refusals = re.findall(r'(?m)^\| (\d+) \| ([A-Z]+) \| (.*) \|$', section(reference, 'Refusals'))
    rules = re.findall(r'\| (\d+) \| ([a-z][^|]*[a-z]) (?=\|)', section(reference, 'Rules'))
    sorts = {
        'refusal': [(0, 'accepted')] + [(int(n), '%s: %s' % (name, words)) for n, name, words in refusals],
        'rule': sorted((int(n), words) for n, words in rules),
        'tag': counted(re.search(r'(?m)^\| tag \| (.*?) \|', layout).group(1)),
        'mode': counted(re.search(r'(?m)^\| mode \| (.*?) \|', layout).group(1)),
        'end': counted(re.search(r'bits 8-15 the end \((.*?)\)', reference).group(1)),
    }
    told = dict(sorts['refusal'])
    sorts['refusal'] = [(n, told.get(n, 'unknown')) for n in range(max(told) + 1)]  # numbers that no row has are not given
    version = re.search(r'(?m)^#define RISSOBARM_VERSION "(.*)"$', page('include', 'rissobarm.h')).group(1)
    lines = ['version %s' % version, 'version numbers %s' % version]
    for sort, texts in sorts.items():
        lines += ['%s %d %s' % (sort, number, words) for number, words in texts] + ['%s past unknown' % sort]
    return lines + ['none: unknown, unknown']


def numbers(header):
    """The constants of the header: numbers, sums and products of other constants."""
    found = {}
    for name, words in re.findall(r'(?m)^(?:enum \{)? *(RISSOBARM_\w+) = ([\w +*]+?)(?:,| *[};/]|$)', header):
        found[name] = eval(words, {}, found)
    return found


def unlike():
    """The limits and the calls that the header and REFERENCE.md do not share."""
    reference, header = page('docs', 'REFERENCE.md'), page('include', 'rissobarm.h')
    known = numbers(header)
    for number, name in re.findall(r'(?m)^\| .* \| ([\d,]+) \| `(RISSOBARM_\w+)` \|$', section(reference, 'Limits')):
        if known.get(name) != int(number.replace(',', '')):
            yield 'the limit %s is %s in the header, %s on the page' % (name, known.get(name), number)
    listed = set(re.findall(r'`(RISSOBARM_\w+)` \|', section(reference, 'Limits')))
    limits = {name for name in known if re.fullmatch(r'RISSOBARM_[A-Z]+_LIMIT', name)}
    yield from ('REFERENCE.md lacks the limit %s' % name for name in sorted(limits - listed))
    calls = re.findall(r'(?m)^uint64_t (rissobarm_[a-z_]+)\(', header)
    rows = re.findall(r'(?m)^\| `(rissobarm_[a-z_]+)\(', section(reference, 'Calls'))
    yield from ('%s is in the header or on the page alone' % name for name in sorted(set(calls) ^ set(rows)))


def main():
    with open(sys.argv[1]) as printed:
        got = printed.read().splitlines()
    want = expected()
    wrong = [(a, b) for a, b in zip(got, want) if a != b]
    if wrong or len(got) != len(want):
        a, b = wrong[0] if wrong else ('%d texts' % len(got), '%d texts' % len(want))
        sys.exit('texts: the header has `%s`, the pages have `%s`' % (a, b))
    for words in unlike():
        sys.exit('texts: ' + words)
    print('texts: %d, as the pages have them; limits and calls too' % len(got))


main()
